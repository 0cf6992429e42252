#!/usr/bin/env python3
"""Checks that no public function is without its law that its contract has one answer.

For each public function of a library the crate's proofs/OneAnswer.antt has a law `name_once`, `type_name_once` of a method or `from_type_once` of a conversion, which repeats the
equations of the function's `ensures` twice, of r and of r', and ends in r ≡ r'; and no law is left over. The `result` of a contract is r in the law, or
a where a parameter is called r, and what a function is lent is a list there, so `s.now` and `s.old` of a contract are `s`, as is `s.entry`. What it leaves
of something lent, `s.new`, is `left` in the law, or `sLeft` where several things are lent, and the law then ends in (r ≡ r') × (left ≡ left').
The last line is 'N passed, M failed'; the exit status is 0 only if nothing failed.
"""
import os
import re
import sys

from contracts import RESULT, flat, libraries, public_functions
from reporting import TOP, read, report

LAW = re.compile(r"^ *pub (\w+_once) :(.*?)^ *\1\b", re.MULTILINE | re.DOTALL)


def laws_of(crate):
    path = os.path.join(TOP, "crates", crate, "proofs", "OneAnswer.antt")
    return {name: flat(body) for name, body in LAW.findall(read(path))} if os.path.exists(path) else {}


def name_of_law(function, laws):
    if function.name == "from":
        return "from_%s_once" % function.owner.lower()
    name = function.name + "_once"
    return function.owner.lower() + "_" + name if function.owner and name not in laws else name


def result_of(function):
    return "a" if re.search(r"[(\s]r: ", function.contract) else "r"


def equation_of(clause, function):
    left = "left" if len(function.lent) < 2 else r"\1Left"
    clause = RESULT.sub(result_of(function), clause).replace(".entry", "")
    clause = re.sub(r"(?<![\w.])(\w+)\.(?:now|old)\b", r"\1", clause)
    clause = re.sub(r"(?<![\w.])(\w+)\.new\b", left, clause)
    return re.sub(r"(?<![\w·'.])[\w·']+", lambda word: function.imports.get(word.group(0), (0, 0, word.group(0)))[2], clause)


def due_of(function):
    equations = " → ".join(equation_of(clause, function) for clause in function.equations)
    results = [result_of(function)] if any(map(RESULT.search, function.equations)) else []
    results += list(dict.fromkeys(re.findall(r"\bleft\b|\b\w+Left\b", equations)))
    other = re.sub(r"(?<![\w.·'])(%s)(?![\w'])" % "|".join(results), r"\1'", equations)
    same = ["%s ≡ %s'" % (result, result) for result in results]
    same = same[0] if len(same) == 1 else " × ".join("(%s)" % equation for equation in same)
    return "→ %s → %s → %s" % (equations, other, same)


def faults_of_function(function, laws):
    name = name_of_law(function, laws)
    if name not in laws:
        return ["there is no " + name]
    if not function.equations:
        return [name + " has no equation"]
    due = due_of(function)
    return [] if ("→ " + laws[name]).endswith(due) else ["%s does not say %s" % (name, due)]


def faults_of_laws():
    functions = public_functions()
    for function in functions:
        yield function.source, faults_of_function(function, laws_of(function.crate))
    for crate in libraries():
        laws = laws_of(crate)
        met = {name_of_law(function, laws) for function in functions if function.crate == crate}
        for law in sorted(set(laws) - met):
            yield "crates/%s/proofs/OneAnswer.antt" % crate, ["%s is of no public function" % law]


if __name__ == "__main__":
    sys.exit(report(faults_of_laws()))
