#!/usr/bin/env python3
"""Holds the listing program `items` against the independent model.

    python3 tests/compare_items.py [--cases N] [--seed S] [--case I] PROGRAM [WORD ..]

PROGRAM and the words after it are the command that runs it, say `tools/x86 run crates/items/out/items`. First checks that the
index of the papers' examples (independent/paper_index.py) names only tests that are there. Runs the inputs that were
written by hand with the output due and the samples of the papers, from a file and bit by bit through a pipe, a stream
of several MB, reads and writes that fail, and N random streams. A difference is printed with what repeats it. The last
line is `N passed, M failed`; the exit status is 0 only if nothing failed.
"""

import os
import random
import sys

sys.path.insert(0, os.path.join(os.path.dirname(os.path.abspath(__file__)), "independent"))

from comparison import random_numbers, run_and_count  # noqa: E402
from failing import (from_folder, from_reset_socket, into_broken_pipe, onto_file_that_may_not_grow,  # noqa: E402
                     onto_full_device, run_cut_off, with_descriptor_closed)
from listing import listing  # noqa: E402
from listing_cases import BY_HAND, HEADER, STOPPED, long_input, random_input  # noqa: E402
from paper_index import index_tests  # noqa: E402
from paper_runs import PAPER_LISTINGS  # noqa: E402
from programs import ProgramComparison  # noqa: E402

LONG_STREAM = 3000000

COMPARISON = ProgramComparison(
    description="Holds the listing program against the independent model.", thing="stream", cases=150, model=listing,
    by_hand=BY_HAND + PAPER_LISTINGS, stopped=(b"stop 1\n",))


def reset_after(data):
    return lambda command: from_reset_socket(command, data)


# Where the listing is cut off, no line `end` or `stop` follows; a boundary that is refused before that is told.
CUT_OFF = (
    ("standard output closed", lambda command: with_descriptor_closed(command, ">&-"), b""),
    ("/dev/full", onto_full_device, None),
    ("a broken pipe", into_broken_pipe, None),
    ("a file that may not grow", lambda command: onto_file_that_may_not_grow(command, b"##\n" + b"<a##" * 20),
     (HEADER + b"1 2 - 9 2\n")[:40]),
    ("standard input closed", lambda command: with_descriptor_closed(command, "<&-"), HEADER),
    ("a folder as input", from_folder, HEADER),
    ("a reset socket", reset_after(b"##\n<Ok inResponseTo='1'/>##<Ok"), HEADER + b"1 22 Ok 0 0\n"),
    ("a reset socket before the 17th byte", reset_after(b"##\n<a##<b"), HEADER + b"1 2 - 9 2\n"),
    ("a reset socket within the boundary", reset_after(b"##"), HEADER),
    ("a reset socket after an empty boundary", reset_after(b"\n"), STOPPED),
)


def run_index(tally):
    tally.begin("the index of the papers' examples")
    for name, test in index_tests():
        tally.run(name, test)
    tally.end()


def run_long_stream(tally, command, seed):
    tally.begin("a stream of several MB")
    data = long_input(random.Random("%d/long" % seed), LONG_STREAM)
    expected = listing(data)
    tally.run("from a file (--seed %d)" % seed, lambda: COMPARISON.check_from_file(command, data, expected))
    tally.run("bit by bit (--seed %d)" % seed, lambda: COMPARISON.check_bit_by_bit(command, data, expected))
    tally.end()


def random_stream_and_listing(seed, number):
    data = random_input(random.Random("%d/%d" % (seed, number)))
    return data, listing(data)


def run_all(arguments, tally):
    if arguments.case is None:
        run_index(tally)
        COMPARISON.run_by_hand(tally, arguments.command)
        run_long_stream(tally, arguments.command, arguments.seed)
        run_cut_off(tally, arguments.command, CUT_OFF)
    COMPARISON.run_random(tally, arguments.command, arguments.seed, random_numbers(arguments),
                          random_stream_and_listing)


if __name__ == "__main__":
    sys.exit(run_and_count(COMPARISON.read_arguments(), run_all))
