"""Makes the fixed framing vectors:  python3 tests/independent/make_framing_vectors.py > tests/vectors/framing.txt

`vector_text` describes the form. Everything expected comes from the model in `framing`.
"""

import itertools
import sys

from framing import COUNT_CAP, MESSAGE_LIMIT, STORE_NEEDED
from framing_block_vectors import BLOCK_GROUPS
from framing_blocks import FIBONACCI
from framing_vectors import Session, every_cut, fed, in_pieces, single, spelled
from paper_000_tables import BOUNDARY_OF_000
from vector_text import vector_to_text

BOUNDARY_OF_LENGTH = {1: b"#", 2: b"##", 3: b"aab", 15: b"aaaaaaabaaaaaaa", 16: b"aaaaaaabaaaaaaab"}
LONG_STORE = 70000


def examples():
    """The short examples of "Cutting the stream", the stream of "The listing", and the boundary of 000 (29 bytes)."""
    yield from every_cut("example-aab", b"aab", b"aaab")
    yield from every_cut("example-aa", b"aa", b"baaa")
    yield from every_cut("example-listing", b"##", b'<Ok inResponseTo="7"/>####<Ok>##abc')
    yield single("paper-000-7.3-boundary", BOUNDARY_OF_000, b"<SessionOk/>" + BOUNDARY_OF_000)


def limits():
    """The last message and the first item too long, with pieces cut around everything that matters there."""
    for k, boundary in BOUNDARY_OF_LENGTH.items():
        for length in sorted({MESSAGE_LIMIT - 1, MESSAGE_LIMIT, MESSAGE_LIMIT + 1, MESSAGE_LIMIT + k}):
            stream = spelled(length) + boundary
            name = "limit-k%d-%d" % (k, length)
            yield fed(name + "-whole", boundary, stream)
            cuts = {1, MESSAGE_LIMIT - 1, MESSAGE_LIMIT, MESSAGE_LIMIT + 1, length + k // 2, length + k - 1}
            for cut in sorted(cuts):
                yield fed("%s-cut-%d" % (name, cut), boundary, stream[:cut], stream[cut:])
        yield fed("limit-k%d-then-good" % k, boundary,
                  spelled(MESSAGE_LIMIT + 1) + boundary + spelled(MESSAGE_LIMIT) + boundary + b"x" + boundary)


def counts_of_16_bits():
    """Records whose length is small again once it is cut to 16 bits; 65,936 is the one that was once filed as 400."""
    good_record = b"<Ok/>"
    for boundary in (b"#", b"##", b"\r\n\r\n", BOUNDARY_OF_LENGTH[16]):
        k = len(boundary)
        for length in (65936, 65936 - k):
            stream = spelled(length) + boundary + good_record + boundary
            name = "filed-as-400-k%d-%d" % (k, length)
            yield fed(name + "-whole", boundary, stream)
            yield fed(name + "-split", boundary, stream[:65536], stream[65536:])
            yield fed(name + "-pieces", boundary, *in_pieces(stream, 8192))
        for length in sorted({65535, 65536, 65537, 65536 + k, 131072, 131073}):
            yield fed("wrapped-k%d-%d" % (k, length), boundary,
                      *in_pieces(spelled(length) + boundary + good_record + boundary, 70000))


def refused_edges():
    """Each refusal one step on both sides of where it begins."""
    piece = b"x" + b"b" * 100
    for k in (0, 1, 2, 15, 16, 17, 18, 64):
        yield single("edge-boundary-%d" % k, b"b" * k, piece)
        yield single("edge-boundary-%d-empty-piece" % k, b"b" * k, b"")
    for store_length in (0, 1, 65520, 65521, 65535, 65536, 65537, LONG_STORE):
        for boundary in (b"b", b"b" * 16):
            name = "edge-store-%d-k%d" % (store_length, len(boundary))
            yield single(name, boundary, piece, store_length=store_length)
            yield single(name + "-long", boundary, b"y" * LONG_STORE, store_length=store_length)
    for places in (0, 1, 4, 5, 6, 38, 39, 40, 41, 64):
        yield single("edge-places-%d" % places, b"b", piece, places=places)


def refused_pairs():
    """The held numbers one step on both sides of where 26 begins."""
    for k, boundary in BOUNDARY_OF_LENGTH.items():
        for matched in (k - 1, k, k + 1):
            for gathered in (matched - 1, matched, matched + 1, 65520, COUNT_CAP):
                if gathered >= 0:
                    name = "edge-pair-k%d-g%d-m%d" % (k, gathered, matched)
                    yield single(name, boundary, boundary, gathered, matched)
    for gathered in (0, 1, 2, 13, 14):
        for matched in (gathered, gathered + 1):
            yield single("edge-tail-g%d-m%d" % (gathered, matched), BOUNDARY_OF_LENGTH[16], b"ab", gathered, matched)
    for gathered, matched in ((COUNT_CAP, COUNT_CAP), (0, COUNT_CAP), (COUNT_CAP, 65536), (65537, 65537), (256, 256)):
        yield single("edge-big-g%d-m%d" % (gathered, matched), b"aab", b"aab", gathered, matched)


def refused_together():
    """All sixteen ways in which the four refusals can meet, for a boundary too short, too long, and right."""
    for places, k, store_length, pair in itertools.product(
            (39, 40), (0, 1, 3, 16, 17), (65535, 65536), ((0, 0), (3, 17), (1, 2), (0, 1))):
        gathered, matched = pair
        yield single("order-p%d-k%d-s%d-g%d-m%d" % (places, k, store_length, gathered, matched),
                     (b"aab" * 6)[:k], b"xyaabaabaabaabaabaabz", gathered, matched, places, store_length)


def refused_between():
    """A refused call within a stream leaves nothing behind: the next call goes on as if it had not been."""
    session = Session("refused-between", b"aab")
    session.call(b"xaa")
    session.call(b"b", places=39)
    session.call(b"b", matched=3)
    session.call(b"b", gathered=1, matched=2)
    session.call(b"")
    session.call(b"b")
    session.feed(b"yaab")
    yield session.vector()


def capped():
    """Counts next to the cap: they stop there, matching goes on, and an item then is too long."""
    for boundary in (b"#", b"aab", BOUNDARY_OF_LENGTH[16]):
        k = len(boundary)
        for below in (0, 1, 2, 10, 20):
            gathered = COUNT_CAP - below
            name = "cap-k%d-below-%d" % (k, below)
            for length in (0, 1, 2, 10, 11, 300):
                yield single("%s-open-%d" % (name, length), boundary, b"x" * length, gathered)
            for length in (0, 1, 10, 40):
                yield single("%s-item-%d" % (name, length), boundary, b"x" * length + boundary + b"rest", gathered)
            for matched in sorted({k - 1, k // 2}):
                yield single("%s-m%d" % (name, matched), boundary, boundary[matched:] + b"rest", gathered, matched)
                yield single("%s-m%d-open" % (name, matched), boundary, b"xaa", gathered, matched)
    session = Session("cap-session", b"aab", LONG_STORE)
    session.call(b"xxaa", COUNT_CAP - 2, 0)
    session.call(b"")
    session.call(b"a")
    yield session.feed(b"b<Ok/>aab", b"aab").vector()
    session = Session("cap-long-piece", b"aab", LONG_STORE)
    session.call(spelled(140000), COUNT_CAP - 70000, 1)
    yield session.feed(b"aab<Ok/>aab").vector()


def given_pairs():
    """Pairs that no history gives: the store holds nothing that would explain m, and is not asked."""
    for boundary in (b"aab", b"aaa", b"abab"):
        for matched in range(len(boundary)):
            for beyond in (0, 1, 7):
                for piece in (b"", b"a", b"b", b"ab", b"aab", b"aaab", b"bab"):
                    yield single("pair-%s-m%d-g%d-%s" % (boundary.decode(), matched, matched + beyond, piece.decode()),
                                 boundary, piece, matched + beyond, matched)


def given_pairs_at_limit():
    """Given pairs whose item would end about the limit."""
    for k, boundary in BOUNDARY_OF_LENGTH.items():
        for matched in sorted({0, k // 2, k - 1}):
            for length in (MESSAGE_LIMIT - 1, MESSAGE_LIMIT, MESSAGE_LIMIT + 1):
                yield single("pair-limit-k%d-m%d-%d" % (k, matched, length), boundary, boundary[matched:] + b"rest",
                             length + matched, matched)


def misleading_stores():
    """The store holds the start of a boundary that m denies, and the other way about."""
    for boundary, laid, piece in ((b"aab", b"aa", b"b"), (b"aab", b"xaa", b"baab"), (b"##", b"#", b"#"),
                                  (b"abab", b"aba", b"bab")):
        for matched in range(len(boundary)):
            session = Session("mislead-%s-%s-m%d" % (boundary.decode(), laid.decode(), matched), boundary)
            session.call(laid, 0, 0)
            session.call(piece, len(laid), matched)
            yield session.vector()


def places_written():
    """Counts about the end of what the store keeps, and far beyond it: which bytes of the piece are laid down."""
    for k, boundary in BOUNDARY_OF_LENGTH.items():
        end = MESSAGE_LIMIT + k
        for gathered in sorted({65519, 65520, 65521, end - 2, end - 1, end, end + 1, 65535, 65536, 65537, 69990, 131072,
                                2**31 - 1, 2**31, 2**32 - 65536}):
            name = "lay-k%d-g%d" % (k, gathered)
            yield single(name + "-open", boundary, spelled(24), gathered)
            yield single(name + "-open-long-store", boundary, spelled(24), gathered, store_length=LONG_STORE)
            yield single(name + "-item", boundary, b"x" + boundary + spelled(20), gathered, store_length=LONG_STORE)
        for store_length in (STORE_NEEDED, LONG_STORE):
            for gathered in (0, 9):
                name = "lay-k%d-from-%d-s%d" % (k, gathered, store_length)
                yield single(name, boundary, spelled(140000), gathered, store_length=store_length)


def empty_pieces():
    for k, boundary in BOUNDARY_OF_LENGTH.items():
        for gathered, matched in ((0, 0), (k, k - 1), (7, 0), (MESSAGE_LIMIT, k - 1), (MESSAGE_LIMIT + k, 0),
                                  (COUNT_CAP, k - 1)):
            yield single("nothing-k%d-g%d-m%d" % (k, gathered, matched), boundary, b"", gathered, matched)
    yield fed("nothing-between", b"aab", b"", b"xa", b"", b"a", b"", b"", b"b", b"", b"aab", b"")


def overlapping():
    """Boundaries that begin again within themselves."""
    for k in (1, 2, 3, 4, 8, 15, 16):
        yield fed("overlap-a%d" % k, b"a" * k, b"a" * (5 * k + k // 2))
        yield fed("overlap-a%d-bytes" % k, b"a" * k, *[b"a"] * (2 * k + 1))
        yield fed("overlap-late-b%d" % k, b"a" * (k - 1) + b"b", b"a" * 40 + b"b" + b"a" * k + b"b" + b"a" * k)
        yield fed("overlap-fibonacci-%d" % k, FIBONACCI[:k], FIBONACCI[:k - 1] + FIBONACCI + FIBONACCI)
        yield fed("overlap-half-%d" % k, FIBONACCI[:k], FIBONACCI[:k // 2] * 3 + FIBONACCI[:k] * 2 + FIBONACCI[:k - 1])
    yield from every_cut("overlap-aabaab", b"aabaaa", b"aabaabaabaaabaaa")
    yield from every_cut("overlap-ababa", b"ababa", b"abababababbaababa")


def all_byte_values():
    every_value = bytes(range(256))
    for boundary in (b"\x00", b"\xff", b"\r\n", b"\x00\x00", b"\xff\xfe\xff", b"\x80", b"\x7f\x80"):
        stream = every_value + boundary + every_value[::-1] + boundary + boundary
        yield fed("values-%s" % boundary.hex(), boundary, stream)


def later_places():
    """Stores longer than needed, used over several items: nothing past the end of what is kept is ever touched."""
    for store_length in (65537, 65552, LONG_STORE):
        for boundary in (b"#", BOUNDARY_OF_LENGTH[16]):
            yield fed("later-s%d-k%d" % (store_length, len(boundary)), boundary,
                      spelled(70000) + boundary + b"short" + boundary, boundary + spelled(65519), b"zz" + boundary,
                      store_length=store_length)


GROUPS = (examples, limits, counts_of_16_bits, refused_edges, refused_pairs, refused_together, refused_between, capped,
          given_pairs, given_pairs_at_limit, misleading_stores, places_written, empty_pieces, overlapping,
          all_byte_values, later_places) + BLOCK_GROUPS


def all_vectors():
    for group in GROUPS:
        yield from group()


def vectors_text():
    return "".join(vector_to_text(vector) + "\n" for vector in all_vectors())


if __name__ == "__main__":
    sys.stdout.write(vectors_text())
