#!/usr/bin/env python3
"""Checks that the repository is kept in order.

- Nothing is dead: each definition and law of the specs and proofs is used, each import too (unused_names.py), each proof is of a function, each file
  of specs and proofs is in its Lib.antt, and each test, sample and bench file is named by another file.
- Functions of code, tests, bench and host have at most 39 lines, contract and braces included.
- Files of specs and proofs have at most 300 lines, others that are written by hand 400.
- Texts have no tab, no white space at a line's end, and a line feed at their end.
The last line is 'N passed, M failed'; the exit status is 0 only if nothing failed.
"""
import ast
import os
import re
import sys

from reporting import TOP, files, read, report
from unused_names import faults_of_names

MOST_LINES_OF_FUNCTION = 39
MOST_LINES_OF_LOGIC = 300
MOST_LINES = 400
# It is printed by a program.
LONGER = {"docs/EXAMPLES.md": 600}

FOLDERS = ("crates", "tests", "bench", "host", "tools", "include", "samples", "docs", ".ci")
WRITTEN = (".rt", ".antt", ".py", ".c", ".cc", ".h", ".md", ".sh", "/run", "/box", "/x86", "/crates.txt")
HELD_TOGETHER = ("tests/*", "tests/c/*", "tests/independent/*", "tests/vectors/*", "samples/*", "bench/*", "host/*", "tools/*")
MADE = re.compile(r"crates/\w+/out/")
OF_FUNCTION = re.compile(r".*/proofs/(?:.+/)?\+?(\w+)/(?:Answers|Invariants|Proof)\.antt$")
FUNCTION_OF_CODE = re.compile(r"( *)(?:pub(?:\(crate\))? )?(?:extern \"C\" )?fn (\w+)")
FUNCTION_OF_C = re.compile(r"\w[^;={]*\b(\w+)\(")


def label(path):
    return os.path.relpath(path, TOP)


def written():
    """The texts that are written by hand. Vectors and samples are made by programs, and what stands in a crate's out/ by rt."""
    found = [path for folder in FOLDERS for path in files(folder, "**", "*")] + files("*")
    return sorted({path for path in found if os.path.isfile(path) and path.endswith(WRITTEN) and not MADE.match(label(path))})


def functions_of_code(text):
    """(name, lines) of each function of Rattle: up to the brace below its `fn`."""
    lines = text.split("\n")
    for at, line in enumerate(lines):
        met = FUNCTION_OF_CODE.match(line)
        if met:
            end = at if line.endswith("}") else lines.index(met.group(1) + "}", at)
            yield met.group(2), end - at + 1


def functions_of_c(text):
    """(name, lines) of each function of C or C++: from a line at the margin with its name to the next brace at the margin."""
    name = start = None
    for at, line in enumerate(text.split("\n")):
        met = FUNCTION_OF_C.match(line)
        if met:
            name, start = met.group(1), at
        if line == "}" and name:
            yield name, at - start + 1
            name = None


def functions_of_python(text):
    for node in ast.walk(ast.parse(text)):
        if isinstance(node, ast.FunctionDef):
            yield node.name, node.end_lineno - node.lineno + 1


FUNCTIONS = {".rt": functions_of_code, ".py": functions_of_python, ".c": functions_of_c, ".cc": functions_of_c, ".h": functions_of_c}


def faults_of_shape(path, text):
    for name, length in FUNCTIONS.get(os.path.splitext(path)[1], lambda _: ())(text):
        if length > MOST_LINES_OF_FUNCTION:
            yield "%s has %d lines" % (name, length)
    most = MOST_LINES_OF_LOGIC if path.endswith(".antt") else LONGER.get(label(path), MOST_LINES)
    if text.count("\n") > most:
        yield "it has %d lines, more than %d" % (text.count("\n"), most)
    for at, line in enumerate(text.split("\n"), 1):
        if "\t" in line or line != line.rstrip():
            yield "line %d has a tab, or white space at its end" % at
    if not text.endswith("\n") or text.endswith("\n\n"):
        yield "it does not end with one line feed"


def faults_of_place(path):
    """A proof is of a function of its crate, and any other file of specs and proofs is declared in the Lib.antt beside it."""
    folder, file = os.path.split(path)
    name = os.path.splitext(file)[0]
    proof = OF_FUNCTION.match(path)
    if proof:
        crate = re.match(r".*/crates/\w+", path).group(0)
        if not any(re.search(r"\bfn %s\b" % proof.group(1), read(source)) for source in files(crate, "src", "**", "*.rt")):
            yield "there is no function " + proof.group(1)
    elif file != "Lib.antt" and not re.search(r"^(?:pub )?mod %s$" % name, read(os.path.join(folder, "Lib.antt")), re.MULTILINE):
        yield "its Lib.antt does not declare it"


def faults_of_citing(path, texts):
    """Another file names it; a module of Python and a sample are named without their ending."""
    name, ending = os.path.splitext(os.path.basename(path))
    short = ending == ".py" or label(path).startswith("samples")
    wanted = re.compile(r"(?<![\w-])%s(?![\w-])" % re.escape(name if short else name + ending))
    if not any(wanted.search(text) for other, text in texts.items() if other != path):
        yield "no other file names it"


def faults_of_files():
    texts = {path: read(path) for path in written()}
    for path, text in texts.items():
        yield label(path), list(faults_of_shape(path, text))
    for path in files("crates", "*", "specs", "**", "*.antt") + files("crates", "*", "proofs", "**", "*.antt"):
        yield label(path), list(faults_of_place(path))
    for path in [path for pattern in HELD_TOGETHER for path in files(pattern) if os.path.isfile(path)]:
        yield label(path), list(faults_of_citing(path, texts))


if __name__ == "__main__":
    sys.exit(report([*faults_of_names(), *faults_of_files()]))
