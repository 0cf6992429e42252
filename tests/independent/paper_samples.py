"""All samples of messages that source documents 000 (7.3) and 004 (3 and 5) print, each under a name that says where it
stands, with the answer due. `make_reader_vectors` and `reader_self_tests` take them from here, and `paper_runs` makes
streams and scripts of them.
"""

from paper_000_body import TABLE_12
from paper_000_tables import BOUNDARY_AS_MESSAGE, TABLES_1_TO_11
from paper_004 import SECTIONS_3_AND_5
from reader_answer import refused
from reader_examples_read import expected_answer


def message_and_answer(marked, verdict):
    """The verdict is a refusal, whose place is marked, or a kind and what its marked values mean."""
    if isinstance(verdict, int):
        return marked.replace(b"{", b""), refused(verdict, max(marked.find(b"{"), 0))
    return expected_answer(marked, *verdict)


def samples_of_000():
    for label, marked, verdict in TABLES_1_TO_11 + TABLE_12:
        yield ("000-table-" + label, *message_and_answer(marked, verdict))
    for label, marked, verdict in BOUNDARY_AS_MESSAGE:
        yield ("000-" + label, *message_and_answer(marked, verdict))


def samples_of_004():
    for label, marked, verdict in SECTIONS_3_AND_5:
        yield ("004-" + label, *message_and_answer(marked, verdict))


def paper_samples():
    """Label, message, the answer due."""
    yield from samples_of_000()
    yield from samples_of_004()
