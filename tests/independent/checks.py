"""What the comparisons share: differences, counting, and a driver that is started anew after it died."""

import os
import time

TOP = os.path.dirname(os.path.dirname(os.path.dirname(os.path.abspath(__file__))))
X86 = os.path.join(TOP, "tools", "x86")
MOST_PRINTED = 20
MOST_DEATHS = 5


class Difference(Exception):
    """What was given is not what the papers say."""


class DriverDied(Exception):
    """The driver ended, or gave no answer, where an answer was due."""


class GivenUp(Exception):
    """The driver died so often that going on would tell nothing more."""


def equal(given, expected, about):
    if given != expected:
        raise Difference("%s: %.200r, expected %.200r" % (about, given, expected))


class Tally:
    def __init__(self):
        self.passed = self.failed = 0
        self.section_began = self.section_start = None

    def begin(self, section):
        self.section_began, self.section_start = (section, self.passed, self.failed), time.monotonic()

    def end(self):
        section, passed, failed = self.section_began
        print("%s: %d passed, %d failed, %.1f s" % (
            section, self.passed - passed, self.failed - failed, time.monotonic() - self.section_start), flush=True)

    def run(self, name, test):
        """One test. Whatever it raises but GivenUp is its failure."""
        try:
            test()
            self.passed += 1
        except GivenUp:
            self.fail(name, "the driver died again")
            raise
        except (Difference, DriverDied) as difference:
            self.fail(name, difference)
        except Exception as mistake:  # an answer so odd that the check itself stumbles is a failure too
            self.fail(name, "%s: %s" % (type(mistake).__name__, mistake))

    def fail(self, name, why):
        self.failed += 1
        if self.failed <= MOST_PRINTED:
            print("FAILED %s: %s" % (name, why), flush=True)
        elif self.failed == MOST_PRINTED + 1:
            print("FAILED more; only the first %d are printed" % MOST_PRINTED, flush=True)


class RealCode:
    """The driver, started anew after it died. `start` makes one from the command that runs the program."""

    def __init__(self, program, start):
        self.command = [X86, "run", os.path.abspath(program)]
        self.deaths = 0
        self.start = start
        self.driver = start(self.command)

    def run(self, test):
        """Runs the test with the driver."""
        try:
            test(self.driver)
        except DriverDied as death:
            self.deaths += 1
            if self.deaths == MOST_DEATHS:
                print("the driver died %d times, the last time so: %s" % (self.deaths, death))
                raise GivenUp() from death
            self.driver = self.start(self.command)
            raise

    def close(self):
        status = self.driver.close()
        if status != 0:
            raise Difference("the driver's exit status is %s" % status)


def vectors_of(name):
    """The lines of a committed file of vectors; none if it is missing, which the comparison then reports."""
    path = os.path.join(TOP, "tests", "vectors", name)
    if not os.path.exists(path):
        return []
    with open(path, encoding="ascii") as vectors:
        return vectors.read().splitlines()


def compare_vectors_made_again(made, lines):
    for number, (one, other) in enumerate(zip(made, lines), 1):
        if one != other:
            raise Difference("line %d of the committed vectors is not what the maker makes" % number)
    if len(made) != len(lines):
        raise Difference("the maker makes %d vectors, %d are committed" % (len(made), len(lines)))


def compare_vectors_written_again(lines, from_text, to_text):
    for line in lines:
        equal(to_text(from_text(line)), line, "the vector read and written again")
