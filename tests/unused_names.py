"""Which definitions and laws of the specs and proofs nothing uses, and which imports their file does not use. It looks at the texts alone.

A name is a run of characters other than spaces and ( ) { } . ; , @ " « »; the operator ◌≡◌ is used as ≡, and ◌>>=◌ by ← too. What stands behind a
dot is a field, or a name of another file. What a proof binds hides what is imported, or defined in the file, under the same name, which a text does not
show: such a name counts as used. Of the code, logic is what stands in clauses, ghost items and `tactic` attributes.
"""
import collections
import os
import re

from reporting import TOP, edits_of, files, must_fail_edits, read

NAME = r"[^\s(){}.;,@\"«»]+"
COMMENT = re.compile(r"(?:^|(?<=\s))(?:--|//).*", re.MULTILINE)
BRACES = r"\{((?:[^{}]|\{(?:[^{}]|\{[^{}]*\})*\})*)\}"
USE = re.compile(r"^(?:(pub|ghost) )?use ([^\s{]+?)(?:(?:\.|::)%s| as (\S+?))?;?$" % BRACES, re.MULTILINE)
MODULE = re.compile(r"Rattle\.(\w+)\.(specs|proofs)\.(.+)")
QUALIFIED = re.compile(r"(?<![^\s(){};,@])(%s)\.(%s)" % (NAME, NAME))
LOGIC = re.compile(r"\b(?:requires|ensures|invariant|ghost (?!use\b))[^{};]*%s|#!?\[tactic\(([^\]]*)\)\]" % BRACES)
ATTRIBUTE = re.compile(r"#!?\[tactic\([^\]]*\)\]")
PATH = re.compile(r"\b(\w+)::(specs|proofs)::([\w:]+)::(\w+)")
PROJECTION = re.compile(r"(?<=[^\s({;,@\"«])\.%s" % NAME)
DEFINITION = re.compile(r" *(?:(?:unfoldable )?(?:abbrev )?(?:pub )?(%s)(?: \{[^}]*\})? :(?!\S)|(?:pub )?(?:record|data) (%s))" % (NAME, NAME))
STATEMENT = re.compile(r"^abbrev pub (\w+) : Type 0$", re.MULTILINE)
PROMISE = re.compile(r" *pub \S+ : (\w+)$")
LINK = re.compile(r"\[`([^`\s]+)`\]\(\.\./crates/(\w+)/(\w+)/(\S+)\.antt\)")
AT = re.compile(r"^at: (specs|proofs)/(\S+)\.antt (\S+)$", re.MULTILINE)


class Source:
    """A file of specs, proofs or code: its module, its imports, its text without them and without comments, and the names of logic in it."""

    def __init__(self, path):
        crate, side, module = re.match(r".*/crates/(\w+)/(\w+)/(.*)\.\w+$", path).groups()
        self.label, self.module = os.path.relpath(path, TOP), (crate, side, module.replace("/", "."))
        text = COMMENT.sub("", read(path))
        self.imports, self.code = USE.findall(text), USE.sub("", text)
        self.words = words_of("\n".join(map("".join, LOGIC.findall(self.code))) if side == "src" else self.code)


def words_of(code):
    """How often each name stands in the code."""
    words = collections.Counter(re.findall(NAME, PROJECTION.sub("", code)))
    words[">>="] += words["←"]
    return words


def is_used(name, words):
    return words[name] > 0 or ("◌" in name and all(words[part] > 0 for part in name.split("◌") if part))


def imported(names):
    """(its name there, its name here) of each name of a list; a list of Rust has paths and further lists in it."""
    for name in re.split(r"[,{}]", names):
        there, _, here = name.strip().partition(" as ")
        if there and there != "self" and not there.endswith("::"):
            yield there, here or there.split("::")[-1]


def unused_imports(source):
    for mark, path, names, alias in source.imports:
        if mark == "pub":
            continue
        if alias and not re.search(r"(?<![^\s(){};,@])%s(?:\.|::)" % re.escape(alias), source.code):
            yield "imports %s and does not use it" % alias
        elif not alias and not names and re.split(r"::|\.", path)[-1] not in re.findall(r"\w+", source.code):
            yield "imports %s and does not use it" % path
        of_rust = source.module[1] == "src" and mark != "ghost"
        for _, name in imported(names):
            if name not in re.findall(r"\w+", source.code) if of_rust else not is_used(name, source.words):
                yield "imports %s and does not use it" % name


def definitions(code):
    """(name, its lines) of each definition at the top or in a module block. Fields, constructors and what stands behind `where` are none."""
    lines, above, starts = code.split("\n"), [], []
    for at, line in enumerate(lines):
        indent = len(line) - len(line.lstrip())
        if not line.strip():
            continue
        above = [(depth, block) for depth, block in above if depth < indent]
        block = line.lstrip().startswith("module ")
        if all(inside for _, inside in above):
            met = DEFINITION.match(line)
            if block or met:
                starts.append((at, None if block else met.group(1) or met.group(2)))
        above.append((indent, block))
    ends = [at for at, _ in starts[1:]] + [len(lines)]
    return [(name, at, end) for (at, name), end in zip(starts, ends) if name]


def citations(sources):
    """((crate, side, module), name) of all that other files cite: imports, `alias.name`, links of documents, and what has to refuse an edit."""
    cited = set()
    for source in sources:
        reached = {}
        for _, path, names, alias in source.imports:
            met = MODULE.match(path)
            if met:
                crate, side, module = met.groups()
                cited |= {((crate, side, module), there) for there, _ in imported(names)}
                outer, _, inner = module.rpartition(".")
                cited.add(((crate, side, outer), inner))
                reached[alias] = (crate, side, module)
        for crate, side, module, name in PATH.findall(" ".join(ATTRIBUTE.findall(source.code))):
            cited.add(((source.module[0] if crate == "crate" else crate, side, module.replace("::", ".")), name))
        cited |= {(reached[alias], name) for alias, name in QUALIFIED.findall(source.code) if alias in reached}
    for document in files("docs", "*.md"):
        cited |= {((crate, side, module.replace("/", ".")), name) for name, crate, side, module in LINK.findall(read(document))}
    for path in must_fail_edits():
        for _, edit in edits_of("", read(path)):
            cited |= {((path.split(os.sep)[-3], side, module.replace("/", ".")), name) for side, module, name in AT.findall(edit)}
    return cited


def looked_up(source, name, line, statements):
    """What no file has to cite: an answer or an invariant, which the prover looks up by its name, a promise, and a law that tests/check_answers.py looks up."""
    _, side, module = source.module
    folder, _, file = module.rpartition(".")
    if side == "proofs" and folder and file in ("Answers", "Invariants") and re.search(r" : \w+\.%s$" % re.escape(name), line):
        return True
    if file == "Proof" and re.sub(r"[-_]spec$", "", name) == folder.split(".")[-1]:
        return True
    promise = PROMISE.match(line)
    return name.endswith("_once") or (promise is not None and promise.group(1) in statements)


def unused_definitions(source, cited, statements):
    lines = source.code.split("\n")
    for name, at, end in definitions(source.code):
        if (source.module, name) not in cited and not looked_up(source, name, lines[at], statements):
            if not is_used(name, source.words - words_of("\n".join(lines[at:end]))):
                yield "nothing uses " + name


def faults_of_names():
    logic = [Source(path) for side in ("specs", "proofs") for path in files("crates", "*", side, "**", "*.antt")]
    code = [Source(path) for path in files("crates", "*", "src", "**", "*.rt")]
    cited = citations(logic + code)
    statements = {name for source in logic for name in STATEMENT.findall(source.code)}
    for source in logic:
        yield source.label, [*unused_definitions(source, cited, statements), *unused_imports(source)]
    for source in code:
        yield source.label, list(unused_imports(source))
