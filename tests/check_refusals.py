#!/usr/bin/env python3
"""Checks why each must-fail edit is refused.

An edit says where it has to be refused, by a line 'at: FILE NAME', or 'at: FUNCTION GOAL' for a goal that is proved without an answer in a file:
the check must refuse NAME there for a reason of its own, and not because something that it cites was refused. Edits of functions that have nothing to
do with each other may share a file, each after a line 'edit: NAME': a proof looks at the function's own code and at the contracts of what it calls, so
one check tries them all. An edit whose file's name begins both_ or stream_ leaves code and contracts in agreement, so nothing of the code may be
refused for a reason of its own. And no edit may only have made a proof unfit for the code's shape.
`rt` says of a refused edit the first reason alone, so each file of edits is tried here once more (refused.py), over what `rt check` of its crate keeps.
Words after the command are crates: then the edits of these alone are tried.
The last line is 'N passed, M failed'; the exit status is 0 only if nothing failed.
"""
import os
import re
import sys

from refused import logs_of
from reporting import edits_of, must_fail_edits, read, report

AT = re.compile(r"^at: (\S+) (\S+)$", re.MULTILINE)
ERROR = re.compile(r"((?:src|specs|proofs)/\S+?):\d+:\d+: error: `([^`]+)`: (.*)")
UNPROVED = re.compile(r"^fn (\S+): (?:not proved|no proof).*?`search` did not prove ([^;\n]*)", re.MULTILINE)
FOLLOWS = re.compile(r"was not admitted|was rejected|not checked")
UNFIT = re.compile(r": error: .*(?:that can be named from here|has no field `|is not in scope)")
OF_THE_CODE = re.compile(r"::|^proofs/.+/(?:Answers|Invariants|Proof)\.antt$")


def refusals(log):
    """(place, name) of everything that was refused for a reason of its own: of a file, or of a function whose goal has no answer."""
    own = {(file, name) for file, name, why in ERROR.findall(log) if not FOLLOWS.search(why)}
    return own | {(function, name) for function, names in UNPROVED.findall(log) for name in re.findall("`([^`]+)`", names)}


def faults_of_places(edit, found):
    wanted = AT.findall(edit)
    if not wanted:
        yield "it does not say where it has to be refused"
    for place in wanted:
        if place not in found:
            yield "not refused at %s of %s, but at %s" % (place[1], place[0], sorted(found))


def faults_of_file(label, edits, found, log):
    places = [place for _, edit in edits for place in {place for place, _ in AT.findall(edit)}]
    for place in sorted({place for place in places if places.count(place) > 1}):
        yield "two of its edits are refused in %s, so one may hide the other" % place
    if label.startswith(("both_", "stream_")):
        for place, name in sorted(found):
            if OF_THE_CODE.search(place):
                yield "the code was refused too, at %s of %s" % (name, place)
    if UNFIT.search(log):
        yield "it only made a proof unfit for the code"


def faults_of_edits(crates):
    paths = [path for path in must_fail_edits() if not crates or path.split(os.sep)[-3] in crates]
    for path, (log, fault) in zip(paths, logs_of(paths)):
        crate, label = path.split(os.sep)[-3], os.path.splitext(os.path.basename(path))[0]
        edits, found = edits_of(label, read(path)), refusals(log)
        of_the_file = [fault] if fault else list(faults_of_file(label, edits, found, log))
        for name, edit in edits:
            yield crate + "/" + name, of_the_file + ([] if fault else list(faults_of_places(edit, found)))


if __name__ == "__main__":
    sys.exit(report(faults_of_edits(sys.argv[1:])))
