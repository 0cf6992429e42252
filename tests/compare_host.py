#!/usr/bin/env python3
"""Holds the line side in C against the listing program `items` and the independent model.

    python3 tests/compare_host.py [--cases N] [--seed S] [--case I] [--items PROGRAM] LINE INTERRUPTED

LINE is host/line_side.c, INTERRUPTED is tests/c/line_side_interrupted.c, both built over the archive. All three programs
get the same inputs, from files, pipes and sockets, whole and bit by bit, and have to print, byte for byte, what the model
prints: inputs written by hand with the output due, and N random streams. LINE and INTERRUPTED also get reads and writes
that fail, and a link that falls quiet. A difference is printed with what repeats it. The last line is `N passed, M
failed`; the exit status is 0 only if nothing failed.
"""

import os
import random
import socket
import subprocess
import sys
import tempfile
import threading
from typing import NamedTuple, Tuple

TOP = os.path.dirname(os.path.dirname(os.path.abspath(__file__)))
sys.path.insert(0, os.path.join(TOP, "tests", "independent"))

from checks import X86, Difference, equal  # noqa: E402
from comparison import parser_of_comparison, random_numbers, run_and_count  # noqa: E402
from failing import (from_folder, from_reset_socket, into_broken_pipe, onto_file_that_may_not_grow,  # noqa: E402
                     onto_full_device, with_descriptor_closed)
from listing import listing  # noqa: E402
from listing_cases import BY_HAND, HEADER, NOTHING, STOPPED, random_input  # noqa: E402
from programs import (PATIENCE_SECONDS, cut_at_random, first_differing_line, output_of_file,  # noqa: E402
                      output_through_pipe)
from reader_examples_refused import attributes  # noqa: E402
from reader_vector_text import message_to_text  # noqa: E402

LONGEST_BYTE_BY_BYTE = 3000
LONGEST_START = 17  # items reads so much first, and a read shorter than its packet loses the packet's rest
QUIET_SECONDS = 30
OK = b"<Ok inResponseTo='1'/>"


def padded(length):
    """A message of so many bytes."""
    return OK + b" " * (length - len(OK))


# Name, input, output, as in listing_cases. Nothing here was found by running anything.
MORE_BY_HAND = (
    ("boundary of a zero byte", b"\0\n" + OK + b"\0#\0", HEADER + b"1 22 Ok 0 0\n2 1 - 9 0\nend 0\n"),
    ("boundary of 16 zero bytes", b"\0" * 16 + b"\n" + OK + b"\0" * 31, HEADER + b"1 22 Ok 0 0\nend 15\n"),
    ("17 zero bytes", b"\0" * 17 + b"\n" + OK, STOPPED),
    ("boundary of 15, its LF and a byte", b"0123456789abcde\nx", HEADER + b"end 1\n"),
    ("LF as first and as 17th byte", b"\n0123456789abcde\n", STOPPED),
    ("CR, LF and nothing", b"\r\n", NOTHING),
    ("aab over aab", b"aab\naabaaabaaaab", HEADER + b"1 1 - 9 0\n2 2 - 9 0\nend 0\n"),
    ("aa over aa", b"aa\naaabaabaaaaa", HEADER + b"1 2 - 9 0\n2 1 - 9 0\nend 1\n"),
    ("65,519 bytes", b"##\n" + padded(65519) + b"##", HEADER + b"1 65519 Ok 0 0\nend 0\n"),
    ("65,520 bytes and 16 of the boundary", b"#-ALI-RECORD-#-#\n" + padded(65520) + b"#-ALI-RECORD-#-#",
     HEADER + b"1 65520 Ok 0 0\nend 0\n"),
    ("65,521 bytes between two good ones", b"##\n" + OK + b"##" + padded(65521) + b"##" + OK + b"##",
     HEADER + b"1 22 Ok 0 0\n2 - - 8 0\n3 22 Ok 0 0\nend 0\n"),
    ("65,936 bytes between two good ones", b"##\n" + OK + b"##" + padded(65936) + b"##" + OK + b"##<Ok",
     HEADER + b"1 22 Ok 0 0\n2 - - 8 0\n3 22 Ok 0 0\nend 3\n"),
    ("each refusal",
     b"##\n" + padded(70000) + b"##<Ok>##" + b"<a>" * 33 + b"##<a" + attributes(17) + b"/>##<a><![CDATA[]]></a>##<a/>##<a:"
     + b"n" * 65 + b"/>##",
     HEADER + b"1 - - 8 0\n2 4 - 9 4\n3 99 - 10 96\n4 113 - 11 105\n5 19 - 12 3\n6 4 - 13 0\n7 70 - 14 3\nend 0\n"),
    ("more lines than fit a buffer", b"#\n" + b"<SessionOk ID='1'/>#" * 9 + b"a#" * 4000 + OK + b"#",
     HEADER + b"".join(b"%d 19 SessionOk 0 0\n" % i for i in range(1, 10))
     + b"".join(b"%d 1 - 9 0\n" % i for i in range(10, 4010)) + b"4010 22 Ok 0 0\nend 0\n"),
)


# ---- the programs, and the ways in which they get their input ----

def from_file(command, _, data):
    return output_of_file(command, data)


def in_packets(command, rng, data):
    """Each write to such a pipe is a read of its own, however slow the program is."""
    return output_through_pipe(command, cut_at_random(rng, data, 25), os.O_DIRECT)


def in_packets_after_the_start(command, rng, data):
    """The same for a program that reads its start first."""
    pieces = cut_at_random(rng, data[:LONGEST_START], 3) + cut_at_random(rng, data[LONGEST_START:], 25)
    return output_through_pipe(command, pieces, os.O_DIRECT)


def byte_by_byte(command, _, data):
    return output_through_pipe(command, [bytes([byte]) for byte in data], os.O_DIRECT)


def through_socket(command, rng, data):
    near, far = socket.socketpair()
    with near, far, tempfile.TemporaryFile() as taken:
        with subprocess.Popen(command, stdin=far, stdout=taken) as process:
            far.close()
            impatience = threading.Timer(PATIENCE_SECONDS, process.kill)
            impatience.start()
            try:
                for piece in cut_at_random(rng, data, 25):
                    near.sendall(piece)
            except (BrokenPipeError, ConnectionResetError):
                pass  # a program that stops need not read on
            near.close()
            status = process.wait()
            impatience.cancel()
        taken.seek(0)
        return taken.read(), status


class Program(NamedTuple):
    name: str
    command: Tuple
    ways: Tuple  # how it gets its input

    def ways_for(self, data):
        return [way for way in self.ways if way is not byte_by_byte or len(data) <= LONGEST_BYTE_BY_BYTE]

    def way_of_turn(self, number, data):
        ways = self.ways_for(data)
        return ways[number % len(ways)]


def program(name, path, *ways):
    return Program(name, (X86, "run", os.path.abspath(path)), ways)


def check_output(given, expected, data):
    output, status = given
    if output != expected:
        raise Difference("%s; input %.300s" % (first_differing_line(output, expected), message_to_text(data[:2000])))
    equal(status, 0, "exit status")


def check_way(tally, one, way, about, rng, data, expected):
    name = "%s, %s: %s" % (one.name, way.__name__.replace("_", " "), about)
    tally.run(name, lambda: check_output(way(one.command, rng, data), expected, data))


def run_by_hand(tally, items, lines, seed):
    """The line side gets each input in every way, `items` in the way whose turn it is."""
    tally.begin("inputs written by hand")
    for number, (name, data, expected) in enumerate(BY_HAND + MORE_BY_HAND):
        tally.run("model: " + name, lambda: equal(listing(data), expected, name))
        rng, about = random.Random("%d/%s" % (seed, name)), "%s (--seed %d)" % (name, seed)
        check_way(tally, items, items.way_of_turn(number, data), about, rng, data, expected)
        for one in lines:
            for way in one.ways_for(data):
                check_way(tally, one, way, about, rng, data, expected)
    tally.end()


def run_random(tally, programs, seed, numbers):
    """Each program gets each stream, in the way whose turn it is."""
    tally.begin("random streams")
    for number in numbers:
        rng = random.Random("%d/%d" % (seed, number))
        data = random_input(rng)
        expected, about = listing(data), "random stream (--seed %d --case %d)" % (seed, number)
        for one in programs:
            check_way(tally, one, one.way_of_turn(number, data), about, rng, data, expected)
    tally.end()


# ---- reads and writes that fail ----

# Name, what is done, what standard error names, standard output where it can be seen.
FAILING = (
    ("standard output closed", lambda command: with_descriptor_closed(command, ">&-"), b"writing", b""),
    ("/dev/full", onto_full_device, b"writing", None),
    ("a broken pipe", into_broken_pipe, b"writing", None),
    ("a file that may not grow", lambda command: onto_file_that_may_not_grow(command, b"##\n" + (OK + b"##") * 10), b"writing",
     (HEADER + b"1 22 Ok 0 0\n")[:40]),
    ("standard input closed", lambda command: with_descriptor_closed(command, "<&-"), b"reading", HEADER),
    ("a folder as input", from_folder, b"reading", HEADER),
    ("a reset socket", lambda command: from_reset_socket(command, b"##\n" + OK + b"##<Ok"), b"reading",
     HEADER + b"1 22 Ok 0 0\n"),
)


def check_failing(run, word, expected):
    output, status, said = run
    equal(status, 1, "exit status")
    if not (said.startswith(b"line_side: %s: " % word) and said.count(b"\n") == 1):
        raise Difference("standard error: %.300r, expected one line about %s" % (said, word.decode()))
    if expected is not None:
        equal(output, expected, "standard output")


def run_failing(tally, programs):
    tally.begin("reads and writes that fail")
    for one in programs:
        for name, run, word, expected in FAILING:
            tally.run("%s, %s" % (one.name, name), lambda: check_failing(run(one.command), word, expected))
    tally.end()


# ---- a link that falls quiet ----

# What comes, and what has to show before anything more comes.
DIALOGUE = ((b"", HEADER), (b"##\n<Ok inResponseTo='1'/>#", b""), (b"#<a", b"1 22 Ok 0 0\n"), (b">####", b"2 3 - 9 3\n"),
            (b"##" + OK + b"##" + OK + b"##", b"3 22 Ok 0 0\n4 22 Ok 0 0\n"))


def read_exactly(file, length):
    read = b""
    while len(read) < length:
        more = file.read(length - len(read))
        if not more:
            break
        read += more
    return read


def with_patience(command, talk):
    """Kills the program if it keeps waiting, so that what it did not show is missed."""
    with subprocess.Popen(command, stdin=subprocess.PIPE, stdout=subprocess.PIPE, bufsize=0) as process:
        impatience = threading.Timer(QUIET_SECONDS, process.kill)
        impatience.start()
        try:
            talk(process)
        finally:
            impatience.cancel()
            process.kill()


def talk_of_items(process):
    for given, shown in DIALOGUE:
        process.stdin.write(given)
        equal(read_exactly(process.stdout, len(shown)), shown, "after %r" % given)
    process.stdin.close()
    equal(process.stdout.read(), b"end 0\n", "at the end")
    equal(process.wait(), 0, "exit status")


def talk_of_boundary(given):
    """A refused boundary is told at once, with the input still open."""
    def talk(process):
        process.stdin.write(given)
        equal(read_exactly(process.stdout, len(STOPPED)), STOPPED, "after %r" % given)
        equal(process.wait(), 0, "exit status")
    return talk


TALKS = (("items", talk_of_items), ("an empty boundary", talk_of_boundary(b"\n")),
         ("a boundary of 17 bytes", talk_of_boundary(b"0123456789abcdefg")))


def run_quiet(tally, programs):
    tally.begin("a link that falls quiet")
    for one in programs:
        for name, talk in TALKS:
            tally.run("%s, %s" % (one.name, name), lambda: with_patience(one.command, talk))
    tally.end()


def run_all(arguments, tally):
    items = program("items", arguments.items, from_file, byte_by_byte, in_packets_after_the_start)
    line = program("line", arguments.line, in_packets, byte_by_byte, through_socket, from_file)
    interrupted = program("interrupted", arguments.interrupted, through_socket, from_file, byte_by_byte)
    if arguments.case is None:
        run_by_hand(tally, items, (line, interrupted), arguments.seed)
        run_failing(tally, (line, interrupted))
        run_quiet(tally, (line, interrupted))
    run_random(tally, (items, line, interrupted), arguments.seed, random_numbers(arguments))


def read_arguments():
    parser = parser_of_comparison("Holds the line side in C against items and the independent model.", "stream", 100)
    parser.add_argument("--items", default=os.path.join(TOP, "crates", "items", "out", "items"), help="the listing program (%(default)s)")
    parser.add_argument("line", help="host/line_side.c, built")
    parser.add_argument("interrupted", help="tests/c/line_side_interrupted.c, built")
    arguments = parser.parse_args()
    for path in (arguments.items, arguments.line, arguments.interrupted):
        if not os.path.isfile(path):
            parser.error("there is no program %s" % path)
    return arguments


if __name__ == "__main__":
    sys.exit(run_and_count(read_arguments(), run_all))
