#!/usr/bin/env python3
"""beside.py [cutting | reading] BEFORE AFTER: times two archives of crates/line, their ali_gather, their ali_read or, with no word, both.

Both archives are in one program, bench/gather.c or bench/read.cc, where they and some peers take turns: a machine is not as fast in one hour as in
the next. There are four such programs, with the code of both archives at another place in each: where a linker happens to put a short loop can make it
a quarter faster or slower. A cell has the mean of the four medians, and the lowest and the highest of them, in MB/s; a ratio is mean to mean, above 1
where AFTER is faster.
"""
import os
import shlex
import statistics
import subprocess
import sys
import typing

import peers
from responses import written_sets
from summary import rows

TOP = os.path.dirname(os.path.dirname(os.path.abspath(__file__)))
OUT = os.path.join(TOP, "target", "bench")
PLACES = (16, 32, 48, 64)  # bytes behind the start of a line of the cache, which has 64; functions are at multiples of 16
CC = shlex.split(os.environ.get("CC", "cc"))
OBJCOPY = shlex.split(os.environ.get("OBJCOPY", "objcopy"))
FUNCTIONS = ("ali_gather", "ali_read")
READERS_BESIDE = ("expat: no handlers", "pugixml: parse_minimal", "pugixml: parse_default")  # one that checks as much, and one to be level with


class Job(typing.NamedTuple):
    compiler: list
    source: str
    libraries: list
    arguments: list            # of the program
    heads: list                # of the columns that say what a row is about
    medians: typing.Callable   # from the table of the program, by what a row is about and whose they are


def cutting():
    return Job([*CC, "-std=c11", "-D_GNU_SOURCE"], "gather.c", [], [], ["stream", "record", "boundary", "piece"], medians_of_cutting)


def medians_of_cutting(table):
    return {tuple(cells[:4]): {"after": int(cells[5]), "before": int(cells[7]), "memmem + memcpy": int(cells[9])}
            for cells in rows(table) if cells[1].isdigit()}


def reading():
    folder = os.path.join(OUT, "messages")
    messages = [os.path.join(folder, name) for name in written_sets(folder)]
    return Job([*peers.CXX, "-std=c++17"], "read.cc", peers.words_for(["EXPAT", "PUGIXML"]), messages, ["messages, mean bytes"], medians_of_reading)


def medians_of_reading(table):
    found = {}
    for reader, messages, _, speed, _ in rows(table):
        name = "after" if reader == "ali_read" else reader
        if name in ("after", "before", *READERS_BESIDE):
            found.setdefault((messages,), {})[name] = int(speed)
    return found


JOBS = {"cutting": cutting, "reading": reading}


def renamed(archive):
    """Under other names, and with no other name to be seen, the older functions link beside the newer ones."""
    out = os.path.join(OUT, "before.a")
    words = [word for name in FUNCTIONS for word in ("--redefine-sym=%s=%s_before" % (name, name), "--keep-global-symbol=%s_before" % name)]
    subprocess.run([*OBJCOPY, *words, archive, out], check=True)
    return out


def built(job, before, after, place):
    ahead, program = os.path.join(OUT, "ahead.o"), os.path.join(OUT, "beside")
    filling = ".text\n.p2align 6\n.skip %d\n" % place
    subprocess.run([*CC, "-c", "-Wa,--noexecstack", "-o", ahead, "-x", "assembler", "-"], input=filling, text=True, check=True)
    words = "-Wall -Wextra -Werror -DWITH_BEFORE -O2".split() + ["-I" + os.path.join(TOP, "include"), "-o", program]
    source = os.path.join(TOP, "bench", job.source)
    subprocess.run([*job.compiler, *words, source, ahead, after, ahead, before, *job.libraries], check=True)
    return program


def medians(job, program):
    done = subprocess.run([program, *job.arguments], stdout=subprocess.PIPE, text=True)
    if done.returncode != 0:
        sys.exit(1)  # the program has said why
    return job.medians(done.stdout)


def show(job, runs):
    beside = [name for name in next(iter(runs[0].values())) if name not in ("before", "after")]
    heads = [*job.heads, "before", "after", *beside, *("after / " + name for name in ("before", *beside))]
    print("| %s |" % " | ".join(heads))
    print("|---" * len(heads) + "|")
    for what in runs[0]:
        speeds = {name: [run[what][name] for run in runs] for name in ("before", "after", *beside)}
        means = {name: statistics.mean(each) for name, each in speeds.items()}
        cells = ["%.0f (%d to %d)" % (means[name], min(each), max(each)) for name, each in speeds.items()]
        ratios = ["%.2f" % (means["after"] / means[name]) for name in ("before", *beside)]
        print("| %s |" % " | ".join([*what, *cells, *ratios]), flush=True)


def main():
    *chosen, before, after = sys.argv[1:] if len(sys.argv) in (3, 4) else ("", "", "")
    if not set(chosen) <= set(JOBS):
        sys.exit("usage: python3 bench/beside.py [%s] BEFORE AFTER" % " | ".join(JOBS))
    os.makedirs(OUT, exist_ok=True)
    before = renamed(before)
    for name in chosen or JOBS:
        job = JOBS[name]()
        show(job, [medians(job, built(job, before, after, place)) for place in PLACES])
        print()


if __name__ == "__main__":
    main()
