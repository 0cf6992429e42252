#!/usr/bin/env python3
"""Holds the program `replay` against the independent model of the session.

    python3 tests/compare_replay.py [--cases N] [--seed S] [--case I] PROGRAM [WORD ..]

PROGRAM and the words after it are the command that runs it, say `tools/x86 run crates/replay/out/replay`. Runs the model's own
tests, the scripts that were written by hand with the output due, from a file and bit by bit through a pipe, reads and
writes that fail, the fixed vectors of tests/vectors/session.txt, which are also made again, those captured before a
request, under the settings that keep their meaning (tests/independent/session_captured.py), N random scripts, and one
for each ten of these in which two messages come at once, in both orders. A difference is printed with what repeats it;
`python3 tests/independent/session_cases.py S I` prints the script of a random one, `swapped_printed.py` beside it those
with the two messages. The random parts count what they met and fail if something never came. The last line is
`N passed, M failed`; the exit status is 0 only if nothing failed.
"""

import collections
import os
import sys

sys.path.insert(0, os.path.join(os.path.dirname(os.path.abspath(__file__)), "independent"))

from checks import Difference, compare_vectors_made_again, vectors_of  # noqa: E402
from comparison import random_numbers, run_and_count  # noqa: E402
from failing import (from_folder, from_reset_socket, into_broken_pipe, onto_file_that_may_not_grow,  # noqa: E402
                     onto_full_device, run_cut_off, with_descriptor_closed)
from make_session_vectors import vectors_text  # noqa: E402
from paper_runs import PAPER_SCRIPTS  # noqa: E402
from programs import ProgramComparison, output_of_file  # noqa: E402
from replay_script import replay  # noqa: E402
from scripts_by_hand import SCRIPTS_BY_HAND  # noqa: E402
from session_captured import CAPTURED, VECTORS, told_without, with_settings  # noqa: E402
from session_cases import script_numbered  # noqa: E402
from session_self_tests import all_self_tests  # noqa: E402
from session_sightings import TO_SEE, WatchedReplay  # noqa: E402
from session_vector_text import output_to_text, vector_from_text  # noqa: E402
from swapped_printed import TO_SEE_PRINTED, check_printed, sightings_in_lines, swapped_scripts  # noqa: E402
from swapped_sessions import check_all_seen  # noqa: E402

LEAST_CALLS = 100000
SCRIPTS_A_SWAP = 10  # so many random scripts to one in both orders

COMPARISON = ProgramComparison(
    description="Holds the program replay against the independent model of the session.", thing="script", cases=540,
    model=replay, by_hand=SCRIPTS_BY_HAND + PAPER_SCRIPTS, stopped=(b"stop 4\n", b"stop 18\n"))

# Where the script is cut off, no line `end` or `stop` follows, and what came of its last line does nothing.
CUT_OFF = (
    ("standard output closed", lambda command: with_descriptor_closed(command, ">&-"), b""),
    ("/dev/full", onto_full_device, None),
    ("a broken pipe", into_broken_pipe, None),
    ("a file that may not grow", lambda command: onto_file_that_may_not_grow(command, b"x\n" * 5000),
     b"line 1 bad\nline 2 bad\nline 3 bad\nline 4 "),
    ("standard input closed", lambda command: with_descriptor_closed(command, "<&-"), b""),
    ("a folder as input", from_folder, b""),
    ("a reset socket", lambda command: from_reset_socket(command, b"x\n\nstop now\ny"), b"line 1 bad\nline 3 bad\n"),
    ("a reset socket among the settings", lambda command: from_reset_socket(command, b"interval 0\nresends 4\n"), b""),
)


def run_self_tests(tally, lines):
    tally.begin("the model's own tests")
    for name, test in all_self_tests(lines):
        tally.run("model: " + name, test)
    tally.run("vectors made again", lambda: compare_vectors_made_again(vectors_text().splitlines(), lines))
    tally.end()


def run_vector(command, line, settings=()):
    """What the line says is expected; the model is asked only for what a hash does not show."""
    vector = vector_from_text(line)
    script = with_settings(settings, vector.script)
    printed, status = output_of_file(command, script)
    told = output_to_text(told_without(settings, printed))
    if told != vector.output:
        COMPARISON.check((printed, status), script, replay(script))
        raise Difference("%s, expected %s" % (told, vector.output))
    COMPARISON.check_status(status, printed)


def run_vectors(tally, command, lines):
    tally.begin("fixed vectors")
    for line in lines:
        tally.run("vector " + line.split(" ", 1)[0], lambda: run_vector(command, line))
    tally.end()


def run_captured(tally, command, captured):
    tally.begin("vectors of %s under %s" % (captured.file, ", ".join(captured.settings) or "no setting"))
    for line in vectors_of(captured.file):
        tally.run("captured vector " + line.split(" ", 1)[0], lambda: run_vector(command, line, captured.settings))
    tally.end()


class Met:
    """What came up in the random scripts."""

    def __init__(self):
        self.calls = 0
        self.seen = collections.Counter()

    def script_and_output(self, seed, number):
        script, watched = script_numbered(seed, number), WatchedReplay()
        output = watched.run(script)
        self.calls += watched.calls
        self.seen += watched.seen
        return script, output

    def check_calls(self):
        if self.calls < LEAST_CALLS:
            raise Difference("only %d calls" % self.calls)

    def report(self, tally):
        print("met: " + ", ".join("%s %d times" % (thing, self.seen[thing]) for thing in TO_SEE), flush=True)
        print("%d calls" % self.calls, flush=True)
        tally.run("everything met in the random scripts", lambda: check_all_seen(self.seen, TO_SEE))
        tally.run("at least %d calls in the random scripts" % LEAST_CALLS, self.check_calls)


def run_swapped_scripts(command, scripts, due):
    """By the lines alone, and then by the model."""
    runs = [output_of_file(command, script) for script in scripts.all]
    check_printed(scripts, [printed for printed, _ in runs])
    for run, script, expected in zip(runs, scripts.all, due):
        COMPARISON.check(run, script, expected)


def run_swapped(tally, command, seed, numbers):
    """Two messages at once, in both orders. Gives what was met."""
    tally.begin("two messages at once, in both orders")
    seen = collections.Counter()
    for number in numbers:
        scripts = swapped_scripts(seed, number)
        due = [replay(script) for script in scripts.all]
        tally.run("two messages at once (--seed %d --case %d)" % (seed, number),
                  lambda: run_swapped_scripts(command, scripts, due))
        seen.update(sightings_in_lines(scripts, due[0]))
    tally.end()
    return seen


def report_swapped(tally, seen):
    print("met in both orders: " + ", ".join("%s %d times" % (thing, seen[thing]) for thing in TO_SEE_PRINTED))
    tally.run("everything met in both orders", lambda: check_all_seen(seen, TO_SEE_PRINTED))


def run_all(arguments, tally):
    command, met = arguments.command, Met()
    if arguments.case is None:
        lines = vectors_of(VECTORS)
        run_self_tests(tally, lines)
        COMPARISON.run_by_hand(tally, command)
        run_cut_off(tally, command, CUT_OFF)
        run_vectors(tally, command, lines)
        for captured in CAPTURED:
            run_captured(tally, command, captured)
    numbers = random_numbers(arguments)
    COMPARISON.run_random(tally, command, arguments.seed, numbers, met.script_and_output)
    seen = run_swapped(tally, command, arguments.seed, numbers[:len(numbers) // SCRIPTS_A_SWAP or 1])
    if arguments.case is None:
        met.report(tally)
        report_swapped(tally, seen)


if __name__ == "__main__":
    sys.exit(run_and_count(COMPARISON.read_arguments(), run_all))
