"""Framing, written from the papers alone and by plain search, to hold the real code against.

Two methods that share no step:

* `gather` answers one call as document 01 ("Numbers of refusal", "Cutting the stream") and the rulings on framing
  describe it: the part of the boundary already matched is put before the piece and the whole is searched.
* `items_of_stream` never sees pieces: it cuts a whole stream at the boundaries found from the left.

That both agree over every cutting of a stream is what `tests/compare_framing.py` tests before it trusts either.
"""

from typing import List, NamedTuple, Optional, Tuple

MESSAGE_LIMIT = 65520
STORE_NEEDED = 65536
PLACES_NEEDED = 40
COUNT_CAP = 4294967295
LONGEST_BOUNDARY = 16

ANSWER_SHORT = 3
BOUNDARY_LENGTH = 1
STORE_SHORT = 2
HELD_NUMBERS = 26

NO_ITEM = 0
EMPTY = 1
MESSAGE = 2
TOO_LONG = 8


class Gathered(NamedTuple):
    """What one call gives back, and what it leaves behind."""

    refusal: int
    numbers: Optional[Tuple[int, int, int, int, int]]  # taken, item, length, g, m; None where refused
    written: int  # so many bytes of the piece's start were laid into the store, from place g on
    store: bytes  # the whole store afterwards


class Item(NamedTuple):
    kind: int
    message: Optional[bytes]  # None where the item is no message


class CutStream(NamedTuple):
    items: List[Item]
    waiting: bytes


def refusal_of(boundary_length, store_length, gathered, matched, answer_places):
    """The first refusal that applies, in the order the C side promises."""
    if answer_places < PLACES_NEEDED:
        return ANSWER_SHORT
    if not 1 <= boundary_length <= LONGEST_BOUNDARY:
        return BOUNDARY_LENGTH
    if store_length < STORE_NEEDED:
        return STORE_SHORT
    if matched >= boundary_length or matched > gathered:
        return HELD_NUMBERS
    return 0


def end_of_boundary(boundary, text):
    """The least e for which the boundary is a tail of the first e bytes of `text`, or None.

    All occurrences are equally long, so the one that begins first is also the one that ends first.
    """
    begin = text.find(boundary)
    return None if begin < 0 else begin + len(boundary)


def longest_tail_beginning(boundary, text):
    """The length of the longest tail of `text` that begins the boundary; the empty tail always does."""
    longest_thinkable = min(len(boundary), len(text))
    return max(length for length in range(longest_thinkable + 1) if text.endswith(boundary[:length]))


def kind_of_item(message_length):
    if message_length == 0:
        return EMPTY
    return MESSAGE if message_length <= MESSAGE_LIMIT else TOO_LONG


def count_written(boundary, gathered, taken):
    """How many of the bytes taken lie below the end of what the store has to keep."""
    return max(0, min(taken, MESSAGE_LIMIT + len(boundary) - gathered))


def gather(boundary, store, piece, gathered, matched, answer_places):
    """One call. `store` is the lent store beforehand; nothing handed in is changed."""
    refusal = refusal_of(len(boundary), len(store), gathered, matched, answer_places)
    if refusal:
        return Gathered(refusal, None, 0, store)

    searched = boundary[:matched] + piece
    end = end_of_boundary(boundary, searched)
    if end is None:
        taken = len(piece)
        count = min(gathered + taken, COUNT_CAP)
        numbers = (taken, NO_ITEM, 0, count, longest_tail_beginning(boundary, searched))
    else:
        taken = end - matched
        # The capped count would do as well: it is far beyond the limit either way.
        message_length = gathered + taken - len(boundary)
        kind = kind_of_item(message_length)
        numbers = (taken, kind, message_length if kind == MESSAGE else 0, 0, 0)

    written = count_written(boundary, gathered, taken)
    after = store
    if written:
        after = store[:gathered] + piece[:written] + store[gathered + written:]
    return Gathered(0, numbers, written, after)


def items_of_stream(boundary, stream):
    """All items of a whole stream, and the bytes after the last boundary."""
    items = []
    begin = 0
    while True:
        end = stream.find(boundary, begin)
        if end < 0:
            return CutStream(items, stream[begin:])
        kind = kind_of_item(end - begin)
        items.append(Item(kind, stream[begin:end] if kind == MESSAGE else None))
        begin = end + len(boundary)
