#!/usr/bin/env python3
"""Checks what the documents cite: every link leads to a file, and a link whose text is a name leads to a file that has the name.

Also that docs/DEMANDS.md leaves nothing out: each must-fail edit is cited there, and each statement of a crate's specs/Promises.antt and of the
files of specs/ whose first line says which promise they are. And that each statement is proved: a law of proofs/ has it as its type.
The last line is 'N passed, M failed'; the exit status is 0 only if nothing failed.
"""
import os
import re
import sys

from reporting import TOP, edits_of, files, has_promises, must_fail_edits, read, report

LINK = re.compile(r"\[([^\]]*)\]\(([^)\s]+)\)")
NAME = re.compile(r"`([^`\s]+)`$")
STATEMENT = re.compile(r"^abbrev pub (\w+) : Type 0$", re.MULTILINE)


def documents():
    return sorted([os.path.join(TOP, "README.md")] + files("docs", "**", "*.md") + files("bench", "**", "*.md"))


def has_name(path, name):
    if os.path.splitext(os.path.basename(path))[0] == name:
        return True
    return re.search(r"(?<![\w-])" + re.escape(name) + r"(?![\w-])", read(path)) is not None


def faults_of_link(document, text, target):
    path = os.path.normpath(os.path.join(os.path.dirname(document), target))
    if not os.path.exists(path):
        return ["there is no " + target]
    name = NAME.match(text)
    if name and os.path.isfile(path) and not has_name(path, name.group(1)):
        return ["%s has no %s" % (target, name.group(1))]
    return []


def faults_of_links():
    for document in documents():
        for text, target in LINK.findall(read(document)):
            if not re.match(r"[a-z]+:|#", target):
                yield os.path.relpath(document, TOP), faults_of_link(document, text, target)


def faults_of_omission():
    demands = read(os.path.join(TOP, "docs", "DEMANDS.md"))
    for path in must_fail_edits():
        file = os.path.relpath(path, TOP)
        for label, _ in edits_of(os.path.splitext(os.path.basename(path))[0], read(path)):
            name = label.split("/")[-1]
            cited = "[`%s`](../%s)" % (name, file) in demands
            yield "docs/DEMANDS.md", [] if cited else ["does not cite %s of %s" % (name, file)]
    for promises in files_of_promises():
        for statement in STATEMENT.findall(read(promises)):
            yield "docs/DEMANDS.md", [] if "`%s`" % statement in demands else ["does not cite " + statement]


def files_of_promises():
    return [path for path in files("crates", "*", "specs", "*.antt") if has_promises(path)]


def faults_of_proofs():
    for promises in files_of_promises():
        laws = "".join(read(path) for path in files(os.path.dirname(os.path.dirname(promises)), "proofs", "**", "*.antt"))
        for statement in STATEMENT.findall(read(promises)):
            proved = re.search(r"^pub [\w-]+ : %s$" % statement, laws, re.MULTILINE)
            yield os.path.relpath(promises, TOP), [] if proved else [statement + " is not proved"]


sys.exit(report([*faults_of_links(), *faults_of_omission(), *faults_of_proofs()]))
