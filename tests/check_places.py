#!/usr/bin/env python3
"""Runs the examples of docs/PLACES.md through the real reader.

    python3 tests/check_places.py DRIVER

DRIVER is tests/c/drive_read.c built over the archive. A row of a table whose second column is an answer ("9 at 4", "read") is an
example: its first column has the message, as one or more texts in backquotes, perhaps with how often and ×; \\xE0 is a byte.
The last line is 'N passed, M failed'; the exit status is 0 only if nothing failed.
"""
import os
import re
import sys

from reporting import TOP, read, report

sys.path.insert(0, os.path.join(TOP, "tests", "independent"))

from checks import RealCode  # noqa: E402
from read_driver import PLACES_NEEDED, ReadDriver  # noqa: E402

ROW = re.compile(r"^\| (`.*`) \| (?:(\d+) at (\d+)|read) \|", re.MULTILINE)
TEXT = re.compile(r"`(?:(\d+) × )?([^`]+)`")


def message_of(cell):
    pieces = [text.encode("ascii").decode("unicode_escape") * int(times or 1) for times, text in TEXT.findall(cell)]
    return "".join(pieces).encode("latin-1")


def faults_of_example(driver, cell, refusal, place):
    numbers = driver.read_message(message_of(cell), PLACES_NEEDED, 0).numbers
    due = (int(refusal or 0), int(place or 0))
    return [] if numbers[:2] == due else ["%s gives %d at %d" % (cell, *numbers[:2])]


def faults_of_examples(driver):
    for cell, refusal, place in ROW.findall(read(os.path.join(TOP, "docs", "PLACES.md"))):
        yield "docs/PLACES.md", faults_of_example(driver, cell, refusal, place)


if __name__ == "__main__":
    sys.exit(report(faults_of_examples(RealCode(sys.argv[1], ReadDriver).driver)))
