"""Tests of the model itself, so that the real code is not held against a mistake. Each raises on a difference.

What is expected in `EXAMPLES`, `REFUSALS` and `CALLS` was written by hand from the papers, not by running anything.
"""

import itertools
import random

from checks import compare_vectors_written_again, equal
from driver import fill
from framing import (COUNT_CAP, EMPTY, MESSAGE, MESSAGE_LIMIT, NO_ITEM, TOO_LONG, Item, end_of_boundary, gather,
                     items_of_stream, refusal_of)
from framing_cases import STREAM_CASES
from framing_links import ModelLink
from framing_streams import check_stream, cut_at
from vector_text import vector_from_text, vector_to_text

LIMIT_MESSAGE = b"p" * MESSAGE_LIMIT

EXAMPLES = (
    (b"aab", b"aaab", [Item(MESSAGE, b"a")], b""),
    (b"aa", b"baaa", [Item(MESSAGE, b"b")], b"a"),
    (b"##", b'<Ok inResponseTo="7"/>####<Ok>##abc',
     [Item(MESSAGE, b'<Ok inResponseTo="7"/>'), Item(EMPTY, None), Item(MESSAGE, b"<Ok>")], b"abc"),
    (b"##", LIMIT_MESSAGE + b"##", [Item(MESSAGE, LIMIT_MESSAGE)], b""),
    (b"##", LIMIT_MESSAGE + b"p##", [Item(TOO_LONG, None)], b""),
    (b"##", b"p" * 65936 + b"##<Ok/>##", [Item(TOO_LONG, None), Item(MESSAGE, b"<Ok/>")], b""),
)

# boundary length, store length, g, m, answer places, refusal
REFUSALS = (
    (0, 65535, 0, 1, 39, 3), (0, 65535, 0, 1, 40, 1), (17, 65535, 0, 1, 40, 1), (3, 65535, 0, 1, 40, 2),
    (3, 65536, 0, 1, 40, 26), (3, 65536, 1, 1, 40, 0), (3, 65536, 3, 3, 40, 26), (3, 65536, 3, 2, 40, 0),
    (1, 65536, 0, 0, 41, 0), (16, 70000, 15, 15, 64, 0), (16, 65536, COUNT_CAP, 16, 40, 26), (1, 65536, 1, 1, 40, 26),
    (29, 65536, 0, 0, 40, 1),
)

# boundary, piece, g, m; then the five numbers, and how many bytes of the piece are laid into the store at g
CALLS = (
    (b"aab", b"b", 2, 2, (1, EMPTY, 0, 0, 0), 1),
    (b"aab", b"b", 3, 2, (1, MESSAGE, 1, 0, 0), 1),
    (b"aab", b"b", 2, 0, (1, NO_ITEM, 0, 3, 0), 1),
    (b"aab", b"a", 5, 2, (1, NO_ITEM, 0, 6, 2), 1),
    (b"aab", b"", 5, 2, (0, NO_ITEM, 0, 5, 2), 0),
    (b"abab", b"bax", 9, 1, (3, NO_ITEM, 0, 12, 0), 3),
    (b"abab", b"ba", 9, 1, (2, NO_ITEM, 0, 11, 3), 2),
    (b"aab", b"baab", 65522, 2, (1, MESSAGE, 65520, 0, 0), 1),
    (b"aab", b"baab", 65523, 2, (1, TOO_LONG, 0, 0, 0), 0),
    (b"aab", b"xy", 65522, 0, (2, NO_ITEM, 0, 65524, 0), 1),
    (b"#", b"x" * 70000, 0, 0, (70000, NO_ITEM, 0, 70000, 0), 65521),
    (b"aab", b"xxaa", 4294967293, 0, (4, NO_ITEM, 0, 4294967295, 2), 0),
    (b"aab", b"xx", 4294967293, 0, (2, NO_ITEM, 0, 4294967295, 0), 0),
    (b"aab", b"x", 4294967293, 0, (1, NO_ITEM, 0, 4294967294, 0), 0),
    (b"aab", b"b", 4294967295, 2, (1, TOO_LONG, 0, 0, 0), 0),
    (b"aab", b"aabz", 4294967294, 0, (3, TOO_LONG, 0, 0, 0), 0),
)


def test_example(boundary, stream, items, waiting):
    cut = items_of_stream(boundary, stream)
    equal((cut.items, cut.waiting), (items, waiting), "the whole stream")
    link = ModelLink()
    places = range(len(stream) + 1) if len(stream) < 100 else (0, MESSAGE_LIMIT - 1, MESSAGE_LIMIT, MESSAGE_LIMIT + 1)
    for place in places:
        check_stream(link, boundary, cut_at(stream, [place]))


def test_refusals():
    for *given, refusal in REFUSALS:
        equal(refusal_of(*given), refusal, "refusal of %s" % (given,))


def test_calls():
    before = fill(70000, 5)
    for boundary, piece, gathered, matched, numbers, written in CALLS:
        done = gather(boundary, before, piece, gathered, matched, 40)
        about = "boundary %s, piece %.9s, g %d, m %d" % (boundary, piece, gathered, matched)
        equal((done.refusal, done.numbers, done.written), (0, numbers, written), about)
        after = bytearray(before)
        after[gathered:gathered + written] = piece[:written]
        equal(done.store, bytes(after), about)


def words(alphabet, longest):
    for length in range(longest + 1):
        for letters in itertools.product(alphabet, repeat=length):
            yield bytes(letters)


def test_search_is_the_definition():
    """The search by `find` against the ruling's own words: the least e with the boundary as a tail of the first e."""
    for boundary in list(words(b"ab", 4))[1:]:
        for text in words(b"ab", 7):
            ends = [e for e in range(len(text) + 1) if text[:e].endswith(boundary)]
            equal(end_of_boundary(boundary, text), min(ends, default=None), "%s in %s" % (boundary, text))


def small_boundaries():
    return list(words(b"ab", 3))[1:]


def all_small_streams(link, boundary):
    """Every stream of up to five letters a, b, over every cut in two and byte by byte."""
    for stream in words(b"ab", 5):
        link.new_store(65536 + len(stream), len(stream))
        for place in range(len(stream) + 1):
            check_stream(link, boundary, cut_at(stream, [place]))
        check_stream(link, boundary, cut_at(stream, range(len(stream))))
    link.end()


def test_streams_by_chance(case, k):
    for number in range(3):
        case(ModelLink(), random.Random("model/%s/%d/%d" % (case.__name__, k, number)), k)


def all_self_tests(vector_lines):
    """Names and calls of all self-tests."""
    for number, example in enumerate(EXAMPLES, 1):
        yield "example %d" % number, lambda example=example: test_example(*example)
    yield "refusals", test_refusals
    yield "calls", test_calls
    yield "search is the definition", test_search_is_the_definition
    for boundary in small_boundaries():
        yield "small streams, boundary %s" % boundary.decode(), (
            lambda boundary=boundary: all_small_streams(ModelLink(), boundary))
    for case in STREAM_CASES:
        for k in range(1, 17):
            yield "%s, k %d" % (case.__name__, k), lambda case=case, k=k: test_streams_by_chance(case, k)
    yield "vectors can be read", (
        lambda: compare_vectors_written_again(vector_lines, vector_from_text, vector_to_text))
