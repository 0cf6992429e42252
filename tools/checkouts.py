"""What stands in the crates of a checkout, thing by thing, each with its text; and which things of two checkouts are the same one.

The text of a thing is without comments, and white space is one blank; what stands between quotes is left as it is.
"""
import collections
import difflib
import os
import re
import sys
from dataclasses import dataclass

TOP = os.path.dirname(os.path.dirname(os.path.abspath(__file__)))
sys.path.insert(0, os.path.join(TOP, "tests"))

from contracts import functions_of  # noqa: E402
from reporting import crates_of, edits_of, files, has_promises, read  # noqa: E402
from unused_names import COMMENT, USE, definitions, imported, is_used, words_of  # noqa: E402

UNREADABLE = (OSError, UnicodeDecodeError)  # what `read` raises where a file is a folder, or is no text

KINDS = ("definitions", "promises", "public contracts", "private contracts", "proofs", "edits")
# A thing may change its kind, as a function that is made public, and is the same thing for all that.
FAMILY = {"definitions": "logic", "promises": "logic", "public contracts": "functions", "private contracts": "functions"}

QUOTED = r'"(?:\\.|[^"\\])*"'
BLANKS = {".antt": re.compile(r"(%s)|(?:\s|(?:^|(?<=\s))--.*)+" % QUOTED, re.MULTILINE),
          ".rt": re.compile(r"(%s|b'(?:\\.|[^'\\])')|(?:\s|//.*)+" % QUOTED),
          ".edit": re.compile(r"()(?:\s|^#.*)+", re.MULTILINE)}
NOTE = re.compile(r"(%s|b'(?:\\.|[^'\\])')|(?:^|[ \t]+)(?:--|//).*" % QUOTED, re.MULTILINE)
DECLARED = re.compile(
    r"^(?:#\[[^\n]*\]\s+)*(?:pub(?:\(crate\))? )?(?:(?:struct|enum) (\w+)[^;{]*(?:;|\{\}|\{.*?^\})|(?:const|static|type) (\w+).*?;$)", re.MULTILINE | re.DOTALL)
MODULE = re.compile(r"( *)module .*")
FIXITY = re.compile(r"^ *(infix[lr]? \d+) (\S+)$", re.MULTILINE)
PUBLIC = re.compile(r"\bpub (?=extern |fn )")
NAMING = re.compile(r"^(?:pub )?mod \w+$", re.MULTILINE)
LEAST_LIKENESS = 0.5


@dataclass(frozen=True)
class Thing:
    kind: str
    crate: str
    file: str  # from the folder of the crate
    name: str
    text: str
    body: str = ""  # of a function
    lines: tuple = ()  # of a proof, without those that are blank, a comment or an import
    imports: frozenset = frozenset()  # where the names in its text are taken from
    imports_of_body: frozenset = frozenset()

    @property
    def family(self):
        return FAMILY.get(self.kind, self.kind)

    @property
    def key(self):
        return self.family, self.crate, self.file, self.name

    @property
    def place(self):
        return "%s/%s" % (self.crate, self.file)


def plain(text, ending):
    return BLANKS[ending].sub(lambda met: met.group(1) or " ", text).strip()


def bare(code):
    """The lines of a file without comments. A `;` or an import that a comment has behind it is found by its line's end."""
    return NOTE.sub(lambda met: met.group(1) or "", code)


def stands_in(name, text):
    return re.search(r"(?<![\w·'.-])%s(?![\w·'-])" % re.escape(name), text) is not None


def imports_in(text, code):
    """The imports of a bare file that a text in it uses, each with its name there and here."""
    found, words = set(), words_of(text)
    for _, path, names, alias in USE.findall(code):
        if names:
            found |= {(path, there, here) for there, here in imported(names) if is_used(here, words) or stands_in(here, text)}
        else:
            here = alias or re.split(r"::|\.", path)[-1]
            found |= {(path, here)} if stands_in(here, text) else set()
    return frozenset(found)


def modules_above(lines, at):
    """The heads of the modules that a line stands in: what they bind belongs to what they hold."""
    indent, heads = len(lines[at]) - len(lines[at].lstrip()), []
    for line in reversed(lines[:at]):
        met = MODULE.match(line)
        if met and len(met.group(1)) < indent:
            indent = len(met.group(1))
            heads.insert(0, line)
    return heads


def declarations(text):
    """(name, text) of each declaration of a file of specs. How tightly an operator binds belongs to the operator."""
    fixities = {name: fixity for fixity, name in FIXITY.findall(text)}
    text = FIXITY.sub("", text)
    lines = text.split("\n")
    # `definitions` looks at lines alone, so that a quoted dash does no harm here; the texts are taken from the lines as they are.
    for name, at, end in definitions(COMMENT.sub("", text)):
        yield name, plain("\n".join([fixities.get(name, ""), *modules_above(lines, at), *lines[at:end]]), ".antt")


def logic_of(crate, folder):
    for path in files(folder, "specs", "**", "*.antt"):
        kind, code = "promises" if has_promises(path) else "definitions", bare(read(path))
        for name, text in declarations(read(path)):
            yield Thing(kind, crate, os.path.relpath(path, folder), name, text, imports=imports_in(text, code))
    for path in files(folder, "src", "**", "*.rt"):
        code = bare(read(path))
        for met in DECLARED.finditer(code):
            text = plain(met.group(0), ".rt")
            yield Thing("definitions", crate, os.path.relpath(path, folder), met.group(1) or met.group(2), text, imports=imports_in(text, code))


def contracts_of(crate, folder, top):
    for function in functions_of(crate, top):
        kind = "public contracts" if function.public else "private contracts"
        name = "::".join(part for part in (function.owner, function.name) if part)
        path = os.path.join(top, function.source)
        # The type that it is a method of belongs to it; whether it is public is its kind.
        text, body = plain(function.owner + " " + PUBLIC.sub("", function.contract, count=1), ".rt"), plain(function.body, ".rt")
        code = bare(read(path))
        yield Thing(kind, crate, os.path.relpath(path, folder), name, text, body, imports=imports_in(text, code), imports_of_body=imports_in(body, code))


def proofs_of(crate, folder):
    """The answers for a function have its name, with the module in front, its invariants that with a word behind it; any other proof has that of its file."""
    for path in files(folder, "proofs", "**", "*.antt"):
        code = bare(read(path))
        lines = tuple(filter(None, (plain(line, ".antt") for line in NAMING.sub("", USE.sub("", code)).split("\n"))))
        text = " ".join(lines)
        file = os.path.relpath(path, folder)
        name = re.sub(r"(?<=/)(.+)/(?:Answers|Proof)$", r"\1", os.path.splitext(file)[0]).split("/", 1)[1].replace("+", "").replace("/", "::")
        if lines:
            yield Thing("proofs", crate, file, name, text, lines=lines, imports=imports_in(text, code))


def edits_of_crate(crate, folder):
    for path in files(folder, "must-fail", "*.edit"):
        for label, text in edits_of(os.path.splitext(os.path.basename(path))[0], read(path)):
            name = label.split("/")[-1]
            yield Thing("edits", crate, os.path.relpath(path, folder), name, name + " " + plain(text, ".edit"))


def things_of(top):
    """What the crates of a checkout hold, in the order of crates.txt and of the files."""
    found = []
    for crate in crates_of(top):
        folder = os.path.join(top, "crates", crate)
        found += [*logic_of(crate, folder), *contracts_of(crate, folder, top), *proofs_of(crate, folder), *edits_of_crate(crate, folder)]
    return found


def counted(mark, things):
    """The things by their mark, with a running number: a name may stand twice in a file, in two modules."""
    found, times = {}, collections.Counter()
    for thing in things:
        times[mark(thing)] += 1
        found[mark(thing), times[mark(thing)]] = thing
    return found


def alike(before, after):
    one, other = (thing.lines or thing.text.split() for thing in (before, after))
    return difflib.SequenceMatcher(None, one, other, autojunk=False).ratio() >= LEAST_LIKENESS


def met_by(mark, gone, come, fits):
    """Takes out of both lists what has the same mark, once in each, and fits; gives the pairs."""
    places = [collections.defaultdict(list), collections.defaultdict(list)]
    for found, things in zip(places, (gone, come)):
        for thing in things:
            found[mark(thing)].append(thing)
    pairs = [(old[0], places[1][key][0]) for key, old in places[0].items() if len(old) == 1 and len(places[1].get(key, ())) == 1]
    pairs = [pair for pair in pairs if fits(*pair)]
    for before, after in pairs:
        gone.remove(before)
        come.remove(after)
    return pairs


def paired(old, new):
    """(before, after) of each thing of two checkouts; None stands for the one that is not there.

    What has the same name in the same file is one thing, and before that, what has the same text too.
    What is gone from one place and new in another is one thing if its text is the same, or if its name is and the texts are alike.
    """
    gone, come, pairs = old, new, []
    for mark in (lambda thing: (thing.key, thing.text), lambda thing: thing.key):
        before, after = counted(mark, gone), counted(mark, come)
        pairs += [(before[at], after[at]) for at in after if at in before]
        gone, come = [before[at] for at in before if at not in after], [after[at] for at in after if at not in before]
    pairs += met_by(lambda thing: (thing.family, thing.name, thing.text), gone, come, lambda before, after: True)
    pairs += met_by(lambda thing: (thing.family, thing.text), gone, come, lambda before, after: True)
    pairs += met_by(lambda thing: (thing.family, thing.name.split("::")[-1]), gone, come, alike)
    return pairs + [(thing, None) for thing in gone] + [(None, thing) for thing in come]
