"""What the comparisons of whole programs share: running one from a file and bit by bit, comparing what it prints."""

import argparse
import os
import random
import subprocess
import tempfile
import threading
from typing import Callable, NamedTuple, Tuple

from checks import Difference, equal
from comparison import parser_of_comparison
from reader_vector_text import message_to_text

PATIENCE_SECONDS = 120
LONGEST_BYTE_BY_BYTE = 1000


def output_of_file(command, data):
    """The program's output, and its exit status, with the data as a file on standard input."""
    with tempfile.TemporaryFile() as given:
        given.write(data)
        given.seek(0)
        done = subprocess.run(command, stdin=given, stdout=subprocess.PIPE, timeout=PATIENCE_SECONDS, check=False)
    return done.stdout, done.returncode


def output_through_pipe(command, pieces, flags=0):
    """The same, with the pieces written to a pipe one after another."""
    out, into = os.pipe2(os.O_CLOEXEC | flags)
    with tempfile.TemporaryFile() as taken:
        with subprocess.Popen(command, stdin=out, stdout=taken) as program:
            os.close(out)
            impatience = threading.Timer(PATIENCE_SECONDS, program.kill)
            impatience.start()
            try:
                for piece in pieces:
                    while piece:
                        piece = piece[os.write(into, piece):]
            except BrokenPipeError:
                pass  # a program that stops need not read on
            os.close(into)
            status = program.wait()
            impatience.cancel()
        taken.seek(0)
        return taken.read(), status


def cut_at_random(rng, data, many):
    """The data in so many pieces, for a program that gets its input bit by bit."""
    ends = sorted(rng.randint(0, len(data)) for _ in range(many)) + [len(data)]
    return [piece for piece in (data[begin:end] for begin, end in zip([0] + ends, ends)) if piece]


def output_bit_by_bit(command, data):
    """Short data byte after byte, longer data through a plain pipe.

    Each write to a pipe of packets is a packet, and a read gives one packet, however slow the program is. But a read
    shorter than its packet loses the rest, so packets are of one byte.
    """
    if len(data) <= LONGEST_BYTE_BY_BYTE:
        return output_through_pipe(command, [bytes([byte]) for byte in data], os.O_DIRECT)
    return output_through_pipe(command, cut_at_random(random.Random(len(data)), data, 40))


def first_differing_line(given, expected):
    given_lines, expected_lines = given.splitlines(True), expected.splitlines(True)
    for number, (one, other) in enumerate(zip(given_lines, expected_lines), 1):
        if one != other:
            return "line %d: %.200r, expected %.200r" % (number, one, other)
    number = min(len(given_lines), len(expected_lines))
    return "%d lines, expected %d; then %.200r, expected %.200r" % (
        len(given_lines), len(expected_lines), given_lines[number:number + 1], expected_lines[number:number + 1])


class ProgramComparison(NamedTuple):
    """What a comparison of a program has of its own; and what is the same in each of them."""

    description: str
    thing: str  # what the random part runs
    cases: int  # how many of it, unless told otherwise
    model: Callable  # gives the output due for an input
    by_hand: Tuple  # name, input and output of what was written by hand
    stopped: Tuple[bytes, ...]  # how the output ends where the program refused to begin

    def read_arguments(self):
        parser = parser_of_comparison(self.description, self.thing, self.cases)
        parser.add_argument("command", nargs=argparse.REMAINDER, metavar="PROGRAM ..", help="what runs the program")
        arguments = parser.parse_args()
        if not arguments.command:
            parser.error("no program is given")
        return arguments

    def check(self, run, data, expected):
        given, status = run
        if given != expected:
            raise Difference("%s; input %.300s" % (first_differing_line(given, expected), message_to_text(data[:2000])))
        self.check_status(status, expected)

    def check_status(self, status, expected):
        """The papers leave the exit status of a program that refused to begin open: 0 and 1 will do there, and 0 alone
        elsewhere."""
        if status != 0 and not (status == 1 and expected.endswith(self.stopped)):
            raise Difference("exit status %d" % status)

    def check_from_file(self, command, data, expected):
        self.check(output_of_file(command, data), data, expected)

    def check_bit_by_bit(self, command, data, expected):
        self.check(output_bit_by_bit(command, data), data, expected)

    def run_by_hand(self, tally, command):
        tally.begin("inputs written by hand")
        for name, data, expected in self.by_hand:
            tally.run("model: " + name, lambda: equal(self.model(data), expected, name))
            tally.run(name, lambda: self.check_from_file(command, data, expected))
            tally.run(name + ", bit by bit", lambda: self.check_bit_by_bit(command, data, expected))
        tally.end()

    def run_random(self, tally, command, seed, numbers, make):
        """`make` gives the input at a seed and a number, and the output due."""
        tally.begin("random %ss" % self.thing)
        for number in numbers:
            data, expected = make(seed, number)
            check = self.check_bit_by_bit if number % 2 else self.check_from_file
            tally.run("random %s (--seed %d --case %d)" % (self.thing, seed, number),
                      lambda: check(command, data, expected))
        tally.end()
