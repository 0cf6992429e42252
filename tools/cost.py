#!/usr/bin/env python3
"""cost.py GATE_LOG: the tables of docs/COST.md, from the sources and from what `.ci/run` printed.

Lines count if they are neither blank nor only a comment. The seconds are those of the gate's own clock; `rt ci` says of no crate how long it took, which
check_times.py measures.
"""
import os
import re
import sys

TOP = os.path.dirname(os.path.dirname(os.path.abspath(__file__)))
STEP = re.compile(r"^== (.*) took (\d+) s$", re.MULTILINE)


def lines_below(folder, ending, comment):
    count = 0
    for place, _, names in os.walk(folder):
        for name in names:
            if name.endswith(ending):
                with open(os.path.join(place, name), encoding="utf-8") as file:
                    count += sum(1 for line in file if line.strip() and not line.strip().startswith(comment))
    return count


def sizes(crate):
    folder = os.path.join(TOP, "crates", crate)
    return (lines_below(os.path.join(folder, "src"), ".rt", "//"), lines_below(os.path.join(folder, "specs"), ".antt", "--"),
            lines_below(os.path.join(folder, "proofs"), ".antt", "--"))


def crates():
    with open(os.path.join(TOP, "crates.txt"), encoding="utf-8") as file:
        return re.findall(r"^(\w+)(?: [^:#\n]*)?:", file.read(), re.MULTILINE)


def edit_files(crate):
    folder = os.path.join(TOP, "crates", crate, "must-fail")
    return len([name for name in os.listdir(folder) if name.endswith(".edit")]) if os.path.isdir(folder) else 0


def row(cells):
    print("| %s |" % " | ".join(str(cell) for cell in cells))


def main():
    with open(sys.argv[1], encoding="utf-8", errors="replace") as file:
        log = file.read()
    row(["Crate", "code", "definitions and statements", "proofs", "proof lines to a line of code", "edit files"])
    row(["---"] * 6)
    totals = [0] * 4
    for crate in crates():
        code, specs, proofs = sizes(crate)
        cells = [code, specs, proofs, edit_files(crate)]
        totals = [total + cell for total, cell in zip(totals, cells)]
        row([crate, code, specs, proofs, "%.1f" % (proofs / code) if code else "–", *cells[3:]])
    code, specs, proofs = totals[:3]
    row(["all", code, specs, proofs, "%.1f" % (proofs / code), *totals[3:]])
    print()
    row(["Step of the gate", "s"])
    row(["---"] * 2)
    for name, seconds in STEP.findall(log):
        row([name, seconds])


if __name__ == "__main__":
    if len(sys.argv) != 2:
        sys.exit(__doc__)
    main()
