#!/usr/bin/env python3
"""Holds ali_gather against the independent framing model.

    python3 tests/compare_framing.py DRIVER [--cases N] [--seed S] [--case I]

DRIVER is tests/c/drive_gather.c built over the archive: `tools/x86 build DRIVER tests/c/drive_gather.c ARCHIVE`.
Runs the model's own tests, makes the fixed vectors again and compares them with tests/vectors/framing.txt, sends each
vector and then N random cases through the driver. A difference is printed with what repeats it. The last line is
`N passed, M failed`; the exit status is 0 only if nothing failed.
"""

import os
import random
import sys

sys.path.insert(0, os.path.join(os.path.dirname(os.path.abspath(__file__)), "independent"))

from comparison import DriverComparison  # noqa: E402
from framing import Gathered  # noqa: E402
from framing_cases import random_case  # noqa: E402
from framing_links import RealLink  # noqa: E402
from framing_self_tests import all_self_tests, all_small_streams, small_boundaries  # noqa: E402
from gather_driver import Driver  # noqa: E402
from make_framing_vectors import vectors_text  # noqa: E402
from vector_text import vector_from_text  # noqa: E402


def run_vector(driver, line):
    link, vector = RealLink(driver), vector_from_text(line)
    link.new_store(vector.store_length, vector.fill_seed)
    for call in vector.calls:
        end = call.gathered + call.written
        after = link.store
        if call.written:
            after = after[:call.gathered] + call.piece[:call.written] + after[end:]
        expected = Gathered(call.refusal, call.numbers, call.written, after)
        link.call_expecting(expected, vector.boundary, call.piece, call.gathered, call.matched, call.places,
                            vector.fill_seed)
    link.end()


def run_random_case(link, seed, number):
    case, k = random_case(number)
    case(link, random.Random("%d/%d" % (seed, number)), k)
    link.end()


def run_small_streams(tally, real):
    tally.begin("all small streams")
    for boundary in small_boundaries():
        name = "small streams, boundary " + boundary.decode()
        tally.run(name, lambda: real.run(lambda driver: all_small_streams(RealLink(driver), boundary)))
    tally.end()


def run_random_cases(tally, real, seed, numbers):
    tally.begin("random cases")
    for number in numbers:
        name = "%s (--seed %d --case %d)" % (random_case(number)[0].__name__, seed, number)
        tally.run(name, lambda: real.run(lambda driver: run_random_case(RealLink(driver), seed, number)))
    tally.end()


COMPARISON = DriverComparison(
    description="Holds ali_gather against the independent framing model.", thing="case", cases=4000, start=Driver,
    vectors="framing.txt", vectors_text=vectors_text, self_tests=all_self_tests, run_vector=run_vector,
    run_exhaustive=run_small_streams, run_random_cases=run_random_cases)

if __name__ == "__main__":
    sys.exit(COMPARISON.main())
