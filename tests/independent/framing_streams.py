"""Whole streams: how they are fed and checked, and how those of the random cases are made and cut in pieces."""

from checks import Difference
from framing import (MESSAGE, MESSAGE_LIMIT, NO_ITEM, STORE_NEEDED, Item, items_of_stream, kind_of_item,
                     longest_tail_beginning)
from framing_links import describe_bytes_difference, shorten
from vector_text import bytes_to_text

LONGEST_STORE = 70000


# Feeding and checking.

def check_stream(link, boundary, pieces):
    """Feeds the pieces as a line side does, and checks each call by what the whole stream says about that place."""
    stream = b"".join(pieces)
    items = []
    item_begin = place = gathered = matched = 0
    for piece in pieces:
        while True:
            before = link.store
            numbers = link.call(boundary, piece, gathered, matched).numbers
            check_by_stream(boundary, stream, item_begin, place, len(piece), numbers)
            taken, kind, length, gathered, matched = numbers
            place += taken
            check_store(boundary, stream[item_begin:place], before, link.store)
            if kind != NO_ITEM:
                items.append(Item(kind, link.store[:length] if kind == MESSAGE else None))
                item_begin = place
            piece = piece[taken:]
            if not piece:
                break
    expected = items_of_stream(boundary, stream)
    if items != expected.items or stream[item_begin:] != expected.waiting:
        raise Difference("boundary=%s stream=%s in %d pieces: items %s, expected %s" % (
            bytes_to_text(boundary), shorten(bytes_to_text(stream)), len(pieces),
            shorten(repr(items)), shorten(repr(expected.items))))


def check_by_stream(boundary, stream, item_begin, place, piece_length, numbers):
    """The five numbers, told from the stream and the place in it alone."""
    piece_end = place + piece_length
    boundary_begin = stream.find(boundary, item_begin, piece_end)
    if boundary_begin < 0:
        waiting = stream[item_begin:piece_end]
        expected = (piece_length, NO_ITEM, 0, len(waiting), longest_tail_beginning(boundary, waiting))
    else:
        length = boundary_begin - item_begin
        kind = kind_of_item(length)
        taken = boundary_begin + len(boundary) - place
        expected = (taken, kind, length if kind == MESSAGE else 0, 0, 0)
    if numbers != expected:
        raise Difference("boundary=%s stream=%s, item from %d, piece from %d to %d: %s, expected %s" % (
            bytes_to_text(boundary), shorten(bytes_to_text(stream)), item_begin, place, piece_end, numbers, expected))


def check_store(boundary, gathered_bytes, before, after):
    kept = gathered_bytes[:MESSAGE_LIMIT + len(boundary)]
    expected = kept + before[len(kept):]
    if after != expected:
        raise Difference(describe_bytes_difference("the store after %d gathered bytes" % len(gathered_bytes),
                                                   after, expected))


# Making streams and pieces.

def random_letters(rng, alphabet, length):
    return bytes(rng.choices(alphabet, k=length))


def random_boundary(rng, k):
    alphabet = b"abc"[:rng.randint(1, 3)]
    boundary = random_letters(rng, alphabet, k)
    if rng.random() < 0.3:
        # A repeated start overlaps itself more than chance would bring about.
        boundary = (boundary[:rng.randint(1, k)] * k)[:k]
    return boundary, alphabet


def random_stream(rng, boundary, alphabet, length):
    stream = b""
    while len(stream) < length:
        choice = rng.random()
        if choice < 0.3:
            stream += boundary
        elif choice < 0.6:
            stream += boundary[:rng.randint(0, len(boundary))]
        elif choice < 0.7:
            stream += boundary[rng.randint(0, len(boundary)):]
        elif choice < 0.75:
            stream += b"z"  # belongs to no boundary, so every match fails for good
        else:
            stream += random_letters(rng, alphabet, rng.randint(1, 4))
    return stream[:length]


def cut_at(stream, places):
    """The pieces between the places, which may repeat: that makes empty pieces."""
    ends = sorted(places) + [len(stream)]
    return [stream[begin:end] for begin, end in zip([0] + ends, ends)]


def random_cuts(rng, stream):
    count = rng.choice((1, 2, 5, len(stream) // 2))
    places = [rng.randint(0, len(stream)) for _ in range(count)]
    return cut_at(stream, places + [place for place in places if rng.random() < 0.2])


def random_store_length(rng):
    return rng.choice((STORE_NEEDED, STORE_NEEDED + 1, LONGEST_STORE, rng.randint(STORE_NEEDED, LONGEST_STORE)))
