#!/usr/bin/env python3
"""docs/FUNCTIONS.md: every public function of the libraries with the equations that determine it.

  list_functions.py --write    writes the page from the sources
  list_functions.py            checks that the page is what would be written, and that each function is determined: it asks for nothing
                               beforehand, and its result and each thing that it may write to stand in an equation of its contract; a function that
                               is not must be named in docs/EXCEPTIONS.md. The last line is 'N passed, M failed'; the exit status is 0 only if
                               nothing failed.
"""
import os
import re
import sys

from check_answers import laws_of, name_of_law
from contracts import RESULT, libraries, public_functions
from reporting import TOP, crates_of, read, report

PAGE = os.path.join(TOP, "docs", "FUNCTIONS.md")
HEAD = """# Every public function and what determines it

`python3 tests/list_functions.py --write` makes this page from the sources, and the gate holds it to them ([list_functions.py](../tests/list_functions.py)).
No function here has a `requires`. An equation is of the `result` or of what is left of something that was lent (`x.new`), and has on
its other side only what went in, so by one law, [`one_answer`](../crates/laws/proofs/OneAnswer.antt), no second result fits; the law in the last column says so of
the function itself, in the words of its contract ([check_answers.py](../tests/check_answers.py)). An equation has the names of its source file; the column beside it has
the definitions. Functions that are not determined stand in [EXCEPTIONS](EXCEPTIONS.md).
Wrong versions are in [DEMANDS](DEMANDS.md).
"""


def definitions_of(function):
    names = re.findall(r"(?<![\w·'.])[\w·']+", " ".join(function.equations))
    met = [function.imports[name] for name in dict.fromkeys(names) if name in function.imports]
    own = crates_of(TOP)
    return ", ".join("[`%s`](../crates/%s/specs/%s.antt)" % (name, crate, file) for crate, file, name in met if crate in own and file != "declared")


def row_of(function):
    equations = "<br>".join("`%s`" % clause for clause in function.equations)
    law = name_of_law(function, laws_of(function.crate))
    short = "::".join(part for part in (function.module, function.owner, function.name) if part)
    if function.name == "from":
        made = re.search(r"-> (\w+)", function.contract)
        short = "%s::from(%s)" % (made.group(1) if made else "Self", function.owner)
    return "| [%s](../%s) | %s | %s | [`%s`](../crates/%s/proofs/OneAnswer.antt) |" % (
        short, function.source, equations, definitions_of(function), law, function.crate)


def page():
    functions = public_functions()
    lines = [HEAD]
    for crate in libraries():
        mine = [function for function in functions if function.crate == crate]
        if mine:
            lines += ["## %s" % crate, "", "| Function | Equations | Definitions | No second result |", "|---|---|---|---|", *map(row_of, mine), ""]
    return "\n".join(lines)


def shortcomings(function):
    if function.asks:
        yield "it has a `requires`"
    if not function.equations:
        yield "it has no equation"
    said = " ".join(function.equations)
    for name in function.lent:
        if not re.search(r"(?<![\w.])%s\.new\b" % name, said):
            yield "nothing is said of what it leaves of `%s`" % name
    if function.equations and "->" in function.contract and not RESULT.search(said):
        yield "nothing is said of its result"


def faults_of_page():
    yield "docs/FUNCTIONS.md", [] if os.path.exists(PAGE) and read(PAGE) == page() else ["it is not what the sources have: list_functions.py --write"]
    exceptions = read(os.path.join(TOP, "docs", "EXCEPTIONS.md"))
    for function in public_functions():
        excepted = "`%s`" % function.path in exceptions
        yield function.path, [] if excepted else list(shortcomings(function))


if __name__ == "__main__":
    if sys.argv[1:] == ["--write"]:
        with open(PAGE, "w", encoding="utf-8") as file:
            file.write(page())
    else:
        sys.exit(report(faults_of_page()))
