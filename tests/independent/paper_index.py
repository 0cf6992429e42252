"""The index of the papers' examples: which test runs each.

    python3 tests/independent/paper_index.py                 prints it as tables for a page of docs/
    python3 tests/independent/paper_index.py --check PAGE    are the tables of that page the ones printed?

A name is the place of a test and the test there; `*` stands for any rest. The places are those of PLACES below.
`index_tests` checks that every test named is there, and that every sample of `paper_samples` and `paper_runs` is named.
"""

import fnmatch
import os
import sys

from checks import Difference, vectors_of
from listing_cases import BY_HAND
from paper_index_01 import DOCUMENT_01
from paper_index_02 import DOCUMENT_02
from paper_index_others import DOCUMENT_000, DOCUMENT_004, INTERFACES, NOT_RUN
from paper_index_rulings import RULINGS
from paper_runs import PAPER_LISTINGS, PAPER_SCRIPTS
from read_driver import LISTS_ABOUT_THE_LIMIT
from scripts_by_hand import SCRIPTS_BY_HAND
from session_captured import CAPTURED, captured_tests
from session_mistakes import MISTAKES
from session_self_tests import direct_tests
from swapped_printed import TO_SEE_PRINTED, printed_tests
from swapped_sessions import TO_SEE_IN_PAIRS, swapped_tests

PAPERS = (("Document 01", DOCUMENT_01), ("Document 02", DOCUMENT_02), ("Rulings", RULINGS), ("Interfaces", INTERFACES),
          ("Source document 000", DOCUMENT_000), ("Source document 004", DOCUMENT_004))


def link_to_captured(captured):
    settings = ", ".join("`%s`" % setting for setting in captured.settings) or "none"
    return "[%s](../tests/vectors/%s) (%s)" % (os.path.basename(captured.file), captured.file, settings)


PLACES = {
    "framing": "a vector of [framing.txt](../tests/vectors/framing.txt): model and `ali_gather` "
               "([compare_framing.py](../tests/compare_framing.py))",
    "reader": "a vector of [reader.txt](../tests/vectors/reader.txt): model and `ali_read` "
              "([compare_reader.py](../tests/compare_reader.py))",
    "reader call": "a part of [compare_reader.py](../tests/compare_reader.py): model and `ali_read`",
    "session": "a vector of [session.txt](../tests/vectors/session.txt): model and `replay` "
               "([compare_replay.py](../tests/compare_replay.py))",
    "captured": "a vector recorded before a request, under the settings that keep its meaning, of %s: model and "
                "`replay` ([compare_replay.py](../tests/compare_replay.py))" % ", ".join(
                    link_to_captured(captured) for captured in CAPTURED),
    "items": "an input written by hand ([listing_cases.py](../tests/independent/listing_cases.py), "
             "[paper_runs.py](../tests/independent/paper_runs.py)): model and `items` "
             "([compare_items.py](../tests/compare_items.py))",
    "replay": "a script written by hand ([session_examples.py](../tests/independent/session_examples.py), "
              "[conduct_examples.py](../tests/independent/conduct_examples.py), "
              "[resends_examples.py](../tests/independent/resends_examples.py), "
              "[replay_examples.py](../tests/independent/replay_examples.py), "
              "[resends_setting_examples.py](../tests/independent/resends_setting_examples.py), "
              "[swapped_examples.py](../tests/independent/swapped_examples.py), "
              "[paper_runs.py](../tests/independent/paper_runs.py)): model and `replay` "
              "([compare_replay.py](../tests/compare_replay.py))",
    "both orders": "a mix of two messages in random scripts, run in both orders and judged by the lines alone too "
                   "([swapped_printed.py](../tests/independent/swapped_printed.py)): model and `replay` "
                   "([compare_replay.py](../tests/compare_replay.py))",
    "pairs": "a mix of two messages in random sessions of the model, in both orders, and what else comes up there "
             "([swapped_sessions.py](../tests/independent/swapped_sessions.py))",
    "model": "a test of the model alone ([session_self_tests.py](../tests/independent/session_self_tests.py), "
             "[session_captured.py](../tests/independent/session_captured.py), "
             "[swapped_sessions.py](../tests/independent/swapped_sessions.py)), because no script brings it about",
}


def names_of_vectors(name):
    return {line.split(" ", 1)[0] for line in vectors_of(name)}


def tests_there():
    """The names of the tests at each place."""
    return {
        "framing": names_of_vectors("framing.txt"), "reader": names_of_vectors("reader.txt"),
        "reader call": {"answer list of %d places" % places for places in LISTS_ABOUT_THE_LIMIT}
        | {"every byte after beginnings"},
        "session": names_of_vectors("session.txt"),
        "captured": set().union(*(names_of_vectors(captured.file) for captured in CAPTURED)),
        "items": {name for name, _, _ in BY_HAND + PAPER_LISTINGS},
        "replay": {name for name, _, _ in SCRIPTS_BY_HAND + PAPER_SCRIPTS},
        "both orders": set(TO_SEE_PRINTED), "pairs": set(TO_SEE_IN_PAIRS),
        "model": {name for name, _ in (*direct_tests(), *captured_tests(), *swapped_tests(), *printed_tests())}
        | {"by hand: " + mistake.__name__ for mistake in MISTAKES},
    }


def named_by(sections):
    for _, rows in sections:
        for _, *names in rows:
            yield from (name.split(":", 1) for name in names)


def check_tests_are_there(sections):
    there = tests_there()
    missing = [":".join(name) for name in named_by(sections) if not fnmatch.filter(there[name[0]], name[1])]
    if missing:
        raise Difference("no such test: " + ", ".join(missing))


def check_samples_are_named():
    there = tests_there()
    samples = {("reader", name) for name in there["reader"] if name.startswith("paper-")}
    samples |= {("items", name) for name, _, _ in PAPER_LISTINGS} | {("replay", name) for name, _, _ in PAPER_SCRIPTS}
    for _, sections in PAPERS:
        for place, pattern in named_by(sections):
            samples -= {(place, name) for name in fnmatch.filter(there[place], pattern)}
    if samples:
        raise Difference("named by no row: %s" % sorted(samples))


def index_tests():
    for paper, sections in PAPERS:
        yield "the tests named for " + paper, lambda sections=sections: check_tests_are_there(sections)
    yield "the samples named", check_samples_are_named


def cell(names):
    """The names, those of one place together."""
    by_place = {}
    for name in names:
        place, test = name.split(":", 1)
        by_place.setdefault(place, []).append("`%s`" % test)
    return "; ".join("%s: %s" % (place, ", ".join(tests)) for place, tests in by_place.items())


def lines_of_table():
    yield from ("| Place | What stands there |", "|---|---|")
    yield from ("| %s | %s |" % place for place in PLACES.items())
    for paper, sections in PAPERS:
        yield from ("", "## " + paper)
        for title, rows in sections:
            yield from ("", "### " + title, "", "| Example | Run by |", "|---|---|")
            yield from ("| %s | %s |" % (example, cell(names)) for example, *names in rows)
    yield from ("", "## Not run", "", "| Example | Why |", "|---|---|")
    yield from ("| %s | %s |" % row for row in NOT_RUN)


def check_page(path, tables):
    with open(path, encoding="utf-8") as page:
        right = tables in page.read()
    if not right:
        print("FAILED %s: its tables are not the ones that paper_index.py prints" % path)
    print("%d passed, %d failed" % (right, not right))
    return 0 if right else 1


def main(words):
    tables = "\n".join(lines_of_table()) + "\n"
    if words[:1] == ["--check"] and len(words) == 2:
        return check_page(words[1], tables)
    sys.stdout.write(tables)
    return 0


if __name__ == "__main__":
    sys.exit(main(sys.argv[1:]))
