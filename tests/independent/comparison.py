"""What the comparison programs share: their arguments, the parts that they run in the same way, and the last line."""

import argparse
import os
import random
from typing import Callable, NamedTuple

from checks import GivenUp, RealCode, Tally, compare_vectors_made_again, vectors_of


def parser_of_comparison(description, thing, cases):
    """Takes what every comparison can be told. `thing` and `cases` are as in DriverComparison."""
    parser = argparse.ArgumentParser(description=description)
    parser.add_argument("--cases", type=int, default=cases, help="random " + thing + "s (%(default)s)")
    parser.add_argument("--seed", type=int, default=random.SystemRandom().randrange(10**9),
                        help="seed of the random " + thing + "s (a fresh one)")
    parser.add_argument("--case", type=int, help="run this random " + thing + " alone")
    return parser


def random_numbers(arguments):
    """The numbers of the random cases to run."""
    return range(arguments.cases) if arguments.case is None else [arguments.case]


def run_and_count(arguments, run):
    """Gives the exit status. The seed is printed first, so that even a run that never ends can be repeated."""
    print("seed %d" % arguments.seed, flush=True)
    tally = Tally()
    run(arguments, tally)
    print("%d passed, %d failed" % (tally.passed, tally.failed))
    return 1 if tally.failed else 0


class DriverComparison(NamedTuple):
    """What a comparison through a driver has of its own; and all that is the same in each of them."""

    description: str
    thing: str  # what the random part runs
    cases: int  # how many of it, unless told otherwise
    start: Callable  # makes the driver's other end from the command that runs the driver
    vectors: str  # the committed file of vectors
    vectors_text: Callable  # makes that file's text again
    self_tests: Callable  # gives the model's own tests; takes the lines of that file
    run_vector: Callable  # takes the driver and a line of that file
    run_exhaustive: Callable  # tries all of something; takes the tally and the real code
    run_random_cases: Callable  # takes the tally, the real code, the seed and the numbers of the cases

    def main(self):
        return run_and_count(self.read_arguments(), self.run)

    def read_arguments(self):
        parser = parser_of_comparison(self.description, self.thing, self.cases)
        parser.add_argument("driver", help="the driver, built over the archive under test")
        arguments = parser.parse_args()
        if not os.path.isfile(arguments.driver):
            parser.error("there is no program %s" % arguments.driver)
        return arguments

    def run(self, arguments, tally):
        real = RealCode(arguments.driver, self.start)
        try:
            if arguments.case is None:
                lines = vectors_of(self.vectors)
                self.run_self_tests(tally, lines)
                self.run_vectors(tally, real, lines)
                self.run_exhaustive(tally, real)
            self.run_random_cases(tally, real, arguments.seed, random_numbers(arguments))
            tally.run("the driver's end", real.close)
        except GivenUp:
            print("given up; the tests that were left did not run")

    def run_self_tests(self, tally, lines):
        tally.begin("the model's own tests")
        for name, test in self.self_tests(lines):
            tally.run("model: " + name, test)
        tally.run("vectors made again", lambda: compare_vectors_made_again(self.vectors_text().splitlines(), lines))
        tally.end()

    def run_vectors(self, tally, real, lines):
        """What a line says is expected; the model is not asked."""
        tally.begin("fixed vectors")
        for line in lines:
            name = "vector " + line.split(" ", 1)[0]
            tally.run(name, lambda: real.run(lambda driver: self.run_vector(driver, line)))
        tally.end()
