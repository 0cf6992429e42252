#!/usr/bin/env python3
"""Holds ali_read against the independent reader model.

    python3 tests/compare_reader.py DRIVER [--cases N] [--seed S] [--case I]

DRIVER is tests/c/drive_read.c built over the archive: `tools/x86 build DRIVER tests/c/drive_read.c ARCHIVE`.
Runs the model's own tests, makes the fixed vectors again and compares them with tests/vectors/reader.txt, sends each
vector, answer lists about their limit, every byte value after many beginnings and then N random messages through the
driver, and compares all 28 places of each answer. A difference is printed with what repeats it. The random part counts
what it met and fails if a refusal, a kind or a meaning never came. The last line is `N passed, M failed`; the exit
status is 0 only if nothing failed.
"""

import collections
import itertools
import os
import random
import sys

sys.path.insert(0, os.path.join(os.path.dirname(os.path.abspath(__file__)), "independent"))

from checks import Difference  # noqa: E402
from comparison import DriverComparison  # noqa: E402
from make_reader_vectors import vectors_text  # noqa: E402
from read_driver import (LISTS_ABOUT_THE_LIMIT, PLACES_NEEDED, ReadDriver, check_call,  # noqa: E402
                         check_message)
from reader_answer import VALUES, kind_name  # noqa: E402
from reader_beginnings import BEGINNINGS, messages_after  # noqa: E402
from reader_cases import random_case, random_places  # noqa: E402
from reader_self_tests import all_self_tests  # noqa: E402
from reader_vector_text import vector_from_text  # noqa: E402

CASES_THAT_MEET_ALL = 4000  # with fewer, something rare may be missing by mere chance

# Everything that has to come up in the random part.
NUMBER_VALUES = ("SessionOk ID", "Request ID", "Ok inResponseTo", "Response inResponseTo", "Advisory inRelationTo")
TO_MEET = (["refusal %d" % number for number in (0, 3, *range(8, 15))]
           + ["kind %s" % kind_name(kind) for kind in range(1, 8)]
           + ["%s meaning %d" % (name, meaning) for name in NUMBER_VALUES for meaning in (0, 1)]
           + ["%s not there" % name for name in NUMBER_VALUES[3:]]
           + ["SessionOpenResponse status meaning %d" % meaning for meaning in (0, 1, 2)]
           + ["Advisory type meaning %d" % meaning for meaning in (0, 1)] + ["Advisory type in an empty-element tag"])


def things_met(answer, places):
    """What of TO_MEET, and perhaps more, an answer is an example of."""
    if places < PLACES_NEEDED:
        return ["refusal 3"]
    met = ["refusal %d" % answer.refusal]
    if answer.refusal:
        return met
    kind = kind_name(answer.kind)
    met.append("kind " + kind)
    for name, value in zip(VALUES, answer.values):
        met.append("%s %s %s" % (kind, name, "meaning %d" % value.meaning if value.there else "not there"))
        if name == "type" and value.there and value.place == 0:
            met.append("Advisory type in an empty-element tag")
    return met


def run_vector(driver, line):
    vector = vector_from_text(line)
    check_call(driver, vector.message, vector.answer)


def run_random_case(driver, met, seed, number):
    rng = random.Random("%d/%d" % (seed, number))
    message, places = random_case(number)(rng), random_places(rng)
    met.update(things_met(check_message(driver, message, places, rng.randrange(1000)), places))


def check_all_met(met):
    missing = [thing for thing in TO_MEET if not met[thing]]
    if missing:
        raise Difference("never met: " + ", ".join(missing))


def run_beginnings(tally, real):
    tally.begin("every byte after %d beginnings" % len(BEGINNINGS))
    for beginning in BEGINNINGS:
        def test(driver):
            for message in messages_after(beginning):
                check_message(driver, message)
        tally.run("every byte after %r" % (beginning,), lambda: real.run(test))
    tally.end()


def run_answer_lists(tally, real):
    """Refusal 3 on both sides of its limit, for a message that is read, one that is refused and an empty one."""
    tally.begin("answer lists about their limit")
    for places, message in itertools.product(LISTS_ABOUT_THE_LIMIT, (b'<Ok inResponseTo="7"/>', b"<Ok>", b"")):
        tally.run("answer list of %d places, message %r" % (places, message),
                  lambda: real.run(lambda driver: check_message(driver, message, places)))
    tally.end()


def run_fixed_messages(tally, real):
    run_answer_lists(tally, real)
    run_beginnings(tally, real)


def run_random_cases(tally, real, seed, numbers):
    tally.begin("random messages")
    met = collections.Counter()
    for number in numbers:
        name = "%s (--seed %d --case %d)" % (random_case(number).__name__, seed, number)
        tally.run(name, lambda: real.run(lambda driver: run_random_case(driver, met, seed, number)))
    if len(numbers) >= CASES_THAT_MEET_ALL:
        print("met: " + ", ".join("%s %d times" % (thing, met[thing]) for thing in TO_MEET), flush=True)
        tally.run("everything met in the random messages", lambda: check_all_met(met))
    tally.end()


COMPARISON = DriverComparison(
    description="Holds ali_read against the independent reader model.", thing="message", cases=12000, start=ReadDriver,
    vectors="reader.txt", vectors_text=vectors_text, self_tests=all_self_tests, run_vector=run_vector,
    run_exhaustive=run_fixed_messages, run_random_cases=run_random_cases)

if __name__ == "__main__":
    sys.exit(COMPARISON.main())
