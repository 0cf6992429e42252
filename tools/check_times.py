#!/usr/bin/env python3
"""How long checks take, by the clock and by the processor, as the tables of docs/landings have it.

    check_times.py CHECKOUT CRATE ..            the check of each crate
    check_times.py OLD NEW [CRATE ..]           before and after; where none is named, the crates in which something moved (moved.py; an edit is not
                                                read by a check) and those that stand on one
    ... --rounds N                              each check N times, of which the least counts (default: 1)
    ... --gate LOG | --gate OLD_LOG NEW_LOG     the gate's own figures too, or alone where no checkout is named

A check is `rt check` in the crate's folder, from nothing and by one job, with nothing else at its side: what the crate stands on is proved before and not
counted. rt begins a check with what was kept for the same text anywhere on the machine, so a comment is added to the code, another one each time. The few
moments in which rt looks at the crates below count. It is done in a copy, so that the checkout stays as it is. Clock is the time from its start to its end;
processor is user and system time of all that it started. Compare figures of one machine only, and the clock only where nothing else ran.

A log of the gate is what `{ time .ci/run; } 2>&1 | tee LOG` leaves: the last lines are those of bash's `time`. Told are its steps, and before them how
much of the proofs `rt ci` did in that run: what an earlier one passed on the same machine takes no time.
A bad argument, or a file that cannot be read: a word on standard error, and status 2. A crate that is not proved: what rt said, and status 1.
"""
import argparse
import os
import re
import resource
import shutil
import subprocess
import sys
import tempfile
import time

from checkouts import UNREADABLE, crates_of
from cost import STEP, row
from moved import crates_that_moved

CLOCK = re.compile(r"^(real|user|sys)\s+(?:(\d+)m)?([\d.]+)s?$", re.MULTILINE)
COUNT = re.compile(r"^(\d+) passed, (\d+) failed$", re.MULTILINE)
DONE = re.compile(r"^rt: ok;.*?(?:(every proof)|done in this run: (\d+ of the \d+) proofs)", re.MULTILINE)
KEPT = "begins with what a check kept"
NOTHING = "–"


class NotProved(Exception):
    """What rt said of a crate that it did not prove."""


def below(crates, crate):
    """What a crate stands on, of the same checkout, from the bottom."""
    found = []
    for name in crates[crate]:
        if name in crates:
            found += [*below(crates, name), name]
    return list(dict.fromkeys(found))


def copied(checkout, room, needed):
    """A copy of the sources, with the libraries that are needed and proved already: rt holds them to their stamps, and proves them where they differ."""
    shutil.copy(os.path.join(checkout, "crates.txt"), room)
    shutil.copytree(os.path.join(checkout, "crates"), os.path.join(room, "crates"), ignore=shutil.ignore_patterns("out"))
    for old, new in [[os.path.join(top, "crates", name, "out", "rlib") for top in (checkout, room)] for name in needed]:
        if os.path.exists(old):
            shutil.copytree(old, new)


def rt(room, crate, *words):
    """Has rt do something in a crate, and gives the seconds of the clock and of the processor, and what it said."""
    began, before = time.monotonic(), resource.getrusage(resource.RUSAGE_CHILDREN)
    done = subprocess.run(["rt", *words], cwd=os.path.join(room, "crates", crate), stdout=subprocess.PIPE, stderr=subprocess.STDOUT, text=True, check=False)
    clock, after = time.monotonic() - began, resource.getrusage(resource.RUSAGE_CHILDREN)
    if done.returncode:
        raise NotProved(done.stdout)
    return clock, after.ru_utime - before.ru_utime + after.ru_stime - before.ru_stime, done.stdout


def checked(room, crate):
    """(clock, processor) of one check of a crate from nothing."""
    out, code = (os.path.join(room, "crates", crate, name) for name in ("out", "src"))
    shutil.rmtree(out, ignore_errors=True)
    os.makedirs(os.path.join(out, "incremental"))  # which is empty, and goes before what others kept of another text
    root = next(path for path in (os.path.join(code, name) for name in ("main.rt", "lib.rt")) if os.path.exists(path))
    with open(root, "a", encoding="utf-8") as file:
        file.write("// timed: %s %d\n" % (room, time.time_ns()))
    clock, processor, said = rt(room, crate, "check", "--jobs", "1")
    if KEPT in said:
        raise NotProved("%s was not checked from nothing:\n%s" % (crate, said))
    return clock, processor


def times_of(checkout, wanted, rounds):
    """Crate -> (clock, processor) of the wanted crates that the checkout has."""
    crates = crates_of(checkout)
    wanted = [crate for crate in wanted if crate in crates]
    needed = list(dict.fromkeys(name for crate in wanted for name in below(crates, crate)))
    with tempfile.TemporaryDirectory() as room:
        copied(checkout, room, needed)
        for name in needed:
            rt(room, name, "lib")
        found = {crate: [checked(room, crate) for _ in range(rounds)] for crate in wanted}
    return {crate: tuple(map(min, zip(*times))) for crate, times in found.items()}


def seconds(figure):
    return NOTHING if figure is None else "%.1f" % figure


def table_of_checks(checkouts, wanted, rounds):
    times = [times_of(checkout, wanted, rounds) for checkout in checkouts]
    sides = [""] if len(times) == 1 else [" before", " after"]
    row(["Check of"] + ["%s%s, s" % (what, side) for what in ("clock", "processor") for side in sides])
    row(["---"] * (1 + 2 * len(sides)))
    for crate in wanted:
        row([crate] + [seconds(found.get(crate, (None, None))[at]) for at in (0, 1) for found in times])
    print()


class Gate:
    """What a log of the gate says."""

    def __init__(self, path):
        with open(path, encoding="utf-8", errors="replace") as file:
            log = file.read()
        spent = {what: 60 * int(minutes or 0) + float(rest) for what, minutes, rest in CLOCK.findall(log)}
        self.clock, self.processor = spent.get("real"), spent["user"] + spent["sys"] if {"user", "sys"} <= set(spent) else None
        self.counts = COUNT.findall(log)[-1:]
        self.done = next((" ".join(filter(None, found)) for found in DONE.findall(log)), NOTHING)
        self.steps = dict(STEP.findall(log))


def long(figure):
    return NOTHING if figure is None else "%d min %d s" % divmod(round(figure), 60)


def table_of_gate(gates):
    """The gate as a whole, and its steps: clock seconds, of which some run beside others."""
    sides = ["figure"] if len(gates) == 1 else ["before", "after"]
    row(["The gate"] + sides)
    row(["---"] * (1 + len(sides)))
    row(["clock"] + [long(gate.clock) for gate in gates])
    row(["processor"] + [long(gate.processor) for gate in gates])
    row(["passed, failed"] + [", ".join(count) for gate in gates for count in gate.counts or [[NOTHING]]])
    row(["proofs done by `rt ci`"] + [gate.done for gate in gates])
    for name in dict.fromkeys(name for gate in gates for name in gate.steps):
        row([name + ", s"] + [gate.steps.get(name, NOTHING) for gate in gates])
    print()


def arguments(words):
    parser = argparse.ArgumentParser(description=__doc__, formatter_class=argparse.RawDescriptionHelpFormatter)
    parser.add_argument("words", nargs="*", metavar="CHECKOUT or CRATE")
    parser.add_argument("--rounds", type=int, default=1)
    parser.add_argument("--gate", nargs="+", default=[], metavar="LOG")
    given = parser.parse_args(words)
    checkouts = [os.path.abspath(word) for word in given.words if os.path.isfile(os.path.join(word, "crates.txt"))]
    named = [word for word in given.words if os.path.abspath(word) not in checkouts]
    known = {crate for checkout in checkouts for crate in crates_of(checkout)}
    if len(checkouts) > 2 or len(given.gate) > 2 or given.rounds < 1 or not (checkouts or given.gate):
        parser.error("one checkout and its crates or two checkouts, one log or two, and 1 round or more")
    if checkouts and not set(named) <= known:
        parser.error("neither a checkout nor a crate: " + ", ".join(sorted(set(named) - known)))
    if not all(os.path.isfile(path) for path in given.gate):
        parser.error("no such log: " + ", ".join(given.gate))
    if len(checkouts) == 1 and not named:
        parser.error("which crates?")
    return checkouts, named, given


def main():
    try:
        checkouts, named, given = arguments(sys.argv[1:])
        wanted = named or (crates_that_moved(*checkouts) if checkouts else [])
    except UNREADABLE as fault:
        print("check_times.py: %s" % fault, file=sys.stderr)
        sys.exit(2)
    try:
        if checkouts:
            table_of_checks(checkouts, wanted, given.rounds)
    except NotProved as said:
        sys.exit(str(said))
    if given.gate:
        table_of_gate([Gate(path) for path in given.gate])


if __name__ == "__main__":
    main()
