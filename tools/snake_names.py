#!/usr/bin/env python3
"""Brings the definitions and lemmas of crates/ to snake case, and what names them there.

usage: python3 tools/snake_names.py

Run once, at the top, right after the kit's port.py. A name counts that a file of specs/ or proofs/ declares and that has a dash or a capital
inside. Where a file brings a name that is spelled alike from the library, it keeps that there. A proof of a function (Proof.antt) is read, and
what it declares counts in that file alone. Types and modules keep their capitals. Strings are left, and of comments all but what stands
between backquotes. A line that begins 'look:' names a file that had the new name already.
"""
import collections
import glob
import re
import sys

OWN = r"Rattle\.(?:%s)\b"
DECLARED = re.compile(r"^ *(?:(?:pub|abbrev|unfoldable|opaque|pattern)\s+)*((?:[^\s(){}.;,@\"«»:=|]+ +)*[^\s(){}.;,@\"«»:=|]+) +:(?= |$)", re.MULTILINE)
USE = re.compile(r"^\s*(?:pub )?(?:ghost )?use ([^\s{]+?)\.\{([^}]*)\}", re.MULTILINE)
TOKEN = re.compile(r"\"(?:[^\"\\\n]|\\.)*\"|(?<![\w'])b?'(?:\\.|[^'\\\n])'(?!\w)|(?:--|//)[^\n]*|[^\s(){}\[\].;,@\"«»\\:`]+")
OLD = re.compile(r"^[a-z][\w']*(?:-[\w']+)+$|^[a-z][a-z0-9]*[A-Z][\w']*$")


def snake(name):
    return re.sub(r"(?<=[a-z0-9])([A-Z])", r"_\1", name.replace("-", "_")).lower() if not name.startswith("_") else name


def read(path):
    with open(path, encoding="utf-8") as file:
        return file.read()


def is_of_a_function(path):
    return path.endswith("/Proof.antt")


def declared(text):
    return {name for names in DECLARED.findall(text) for name in names.split()}


def brought_from_the_library(text, own):
    """The names under which the file has something of the library's."""
    return {name.strip() for module, names in USE.findall(text) if not own.match(module) for name in names.split(",") if " as " not in name}


def renamed(text, names):
    def word(found):
        token = found.group(0)
        if token.startswith(("--", "//")):
            return re.sub(r"`[^`\n]*`", lambda quoted: TOKEN.sub(lambda it: names.get(it.group(0), it.group(0)), quoted.group(0)), token)
        return token if token[0] in "\"'" or token.startswith("b'") else names.get(token, token)

    return TOKEN.sub(word, text)


def renamed_file(text, names, kept, own):
    """On a line that brings names of the library those names stay, and what they are called here goes as it does below."""
    here = {old: new for old, new in names.items() if old not in kept}

    def line(it):
        use = USE.match(it)
        if not use:
            return renamed(it, here)
        if own.match(use.group(1)):
            return renamed(it, names)
        return re.sub(r"(?<= as )[^\s,}]+", lambda found: here.get(found.group(0), found.group(0)), it)

    return "\n".join(line(it) for it in text.split("\n"))


def new_names(declared_names):
    """Of two names that would fall together the one with capitals is the definition's; the lemma's, which has dashes or had them, then ends in _lem."""
    olds = {name: snake(name) for name in declared_names if OLD.match(name)}
    camel = {new for old, new in olds.items() if "-" not in old}
    names = {}
    for old, new in olds.items():
        taken = "-" in old and (new in camel or new in declared_names)
        names[old] = new + "_lem" if taken else new
    names.update({new: new + "_lem" for new in camel & declared_names})
    return names


def met_in_one_file(path, text, names):
    """A name that the file has already for something else."""
    tokens = set(TOKEN.findall(text))
    return ["look: %s: %s and %s" % (path, old, new) for old, new in sorted(names.items()) if old in tokens and new in tokens and new not in names]


def main():
    crates = sorted(path.split("/")[1] for path in glob.glob("crates/*/"))
    own = re.compile(OWN % "|".join(crates))
    logic = sorted(glob.glob("crates/*/specs/**/*.antt", recursive=True) + glob.glob("crates/*/proofs/**/*.antt", recursive=True))
    shared = [path for path in logic if not is_of_a_function(path)]
    all_declared = set().union(*(declared(read(path)) for path in shared))
    names = new_names(all_declared)
    for path in logic + sorted(glob.glob("crates/*/src/**/*.rt", recursive=True)):
        text = read(path)
        kept = brought_from_the_library(text, own)
        here = dict(names)
        if is_of_a_function(path):
            here.update({name: snake(name) for name in declared(text) if OLD.match(name) and not re.search(r"^(?:abbrev )?%s : tie\." % re.escape(name), text, re.MULTILINE)})
        print("".join(line + "\n" for line in met_in_one_file(path, text, here)), end="")
        with open(path, "w", encoding="utf-8") as file:
            file.write(renamed_file(text, here, kept, own))
    print("%d names" % len(names))


if __name__ == "__main__":
    sys.exit(main())
