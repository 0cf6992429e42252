"""Random framing cases about the borders of blocks (`framing_blocks`), most of them in pieces of 1 to 100 bytes."""

import itertools

from framing import COUNT_CAP, MESSAGE_LIMIT
from framing_blocks import BLOCKS, BORDERS, false_starts, one_bit_off, self_overlapping, with_wrong_byte
from framing_streams import check_stream, cut_at, random_boundary, random_letters, random_store_length

LONGEST_SHORT_PIECE = 100


# Making streams and pieces.

def random_boundary_for_blocks(rng, k):
    choice = rng.random()
    if choice < 0.4:
        return bytes(rng.sample(b"abcdefghijklmnop", k))
    if choice < 0.7:
        return rng.choice(list(self_overlapping(k).values()))
    return random_boundary(rng, k)[0]


def random_filler(rng, boundary):
    """A byte that begins no boundary. It may belong to it all the same, or be hard to tell from its first byte."""
    fillers = [b"x", one_bit_off(boundary[0], rng.randint(0, 6)), boundary[-1:], bytes([rng.choice(boundary)])]
    return rng.choice([filler for filler in fillers if filler != boundary[:1]])


def random_stretch(rng, filler, length):
    """Mostly the filler alone; now and then many letters, so that bytes laid at a wrong place show."""
    return filler * length if rng.random() < 0.7 else random_letters(rng, b"uvwyz", length)


def random_lure_or_boundary(rng, boundary):
    lures = list(false_starts(boundary).values()) + [with_wrong_byte(boundary, rng.randrange(len(boundary)))]
    return rng.choice(lures) if rng.random() < 0.6 else boundary


def stream_sown_about_blocks(rng, boundary, length):
    """False starts and boundaries in distances of about one or two blocks, or close together."""
    filler = random_filler(rng, boundary)
    begin = rng.randint(0, 20)
    stream = b""
    while len(stream) < begin + length:
        sown = random_lure_or_boundary(rng, boundary)
        # The distance is one from begin to begin, or from end to begin.
        distance = rng.choice(BLOCKS) * rng.randint(0, 2) + rng.randint(-2, 2) - rng.choice((0, len(sown)))
        stream += sown + random_stretch(rng, filler, max(distance, 0))
    return stream[begin:begin + length]


def random_lure_with_right_ends(rng, boundary):
    """First and last byte are right, and the middle one mostly, if any other is left to be wrong: one, or some."""
    k = len(boundary)
    if k < 3:
        return boundary[:1]
    places = [place for place in range(1, k - 1) if place != k // 2 or k == 3 or rng.random() < 0.2]
    for place in rng.sample(places, rng.choice((1, 1, rng.randint(1, len(places))))):
        boundary = with_wrong_byte(boundary, place)
    return boundary


def item_behind_blocks_in_vain(rng, boundary):
    """One to three blocks, most with a lure or two, then the boundary; mostly at the next block's first place.

    Whoever begins a place late behind each block that has a lure misses the boundary as many places further on.
    """
    k, block, blocks = len(boundary), rng.choice(BLOCKS), rng.randint(1, 3)
    lured = [number for number in range(blocks) if number == blocks - 1 or rng.random() < 0.6]
    place = blocks * block + rng.choice((0, len(lured) - 1, len(lured) - 1, 1, block - 1))
    item = bytearray(random_stretch(rng, random_filler(rng, boundary), place))
    for number in lured:
        for _ in range(rng.randint(1, 2)):
            at = min(number * block + rng.randint(0, block - 1), place - k)
            lure = random_lure_with_right_ends(rng, boundary)
            item[at:at + len(lure)] = lure
    if rng.random() < 0.2:
        item[-1:] = boundary[:1]  # where a boundary ends in a run, this and the boundary are a lure
    return bytes(item) + boundary


def cut_in_lengths(stream, lengths):
    """Pieces of these lengths in turn, as far as the stream goes; the last one is what is left."""
    ends = itertools.takewhile(lambda end: end < len(stream), itertools.accumulate(lengths))
    return cut_at(stream, ends)


def cut_short(rng, stream):
    """Pieces of 1 to 100 bytes, all equally long or all by chance."""
    if rng.random() < 0.5:
        return cut_in_lengths(stream, itertools.repeat(rng.randint(10, LONGEST_SHORT_PIECE)))
    return cut_in_lengths(stream, (rng.randint(1, LONGEST_SHORT_PIECE) for _ in stream))


# The cases.

def false_starts_about_blocks(link, rng, k):
    boundary = random_boundary_for_blocks(rng, k)
    stream = stream_sown_about_blocks(rng, boundary, rng.randint(100, 500))
    for pieces in [[stream], cut_short(rng, stream), cut_short(rng, stream)]:
        link.new_store(random_store_length(rng), rng.randint(0, 99))
        check_stream(link, boundary, pieces)


def pieces_ending_about_blocks(link, rng, k):
    """In each piece something begins near a border, or the piece ends there; it ends within that or right behind."""
    boundary = random_boundary_for_blocks(rng, k)
    filler = random_filler(rng, boundary)
    stream, ends = b"", [0]
    for _ in range(16):
        behind = rng.randint(0, rng.choice((k + 1, k + 40)))
        # Counted from the piece's begin, from its end, or from where a match held before it may have failed.
        begin = ends[-1] + rng.choice(BORDERS) + rng.randint(-2, 2) + rng.choice((0, -behind, rng.randint(0, k)))
        # What the piece before cut off stands first in this one.
        stream += random_stretch(rng, filler, begin - len(stream)) + random_lure_or_boundary(rng, boundary)
        ends.append(begin + behind)
        stream += filler * (ends[-1] - len(stream))
    link.new_store(random_store_length(rng), rng.randint(0, 99))
    check_stream(link, boundary, cut_at(stream, ends[1:]))


def blocks_in_vain(link, rng, k):
    """Each call begins right behind an item; then the same items in pieces that end with one or a little behind."""
    boundary = random_boundary_for_blocks(rng, k)
    items = [item_behind_blocks_in_vain(rng, boundary) for _ in range(12)]
    stream = b"".join(items) + random_stretch(rng, random_filler(rng, boundary), rng.randint(0, 100))
    ends = [end + rng.choice((0, 0, 1, k - 1)) for end in itertools.accumulate(len(item) for item in items)]
    for pieces in [[stream], cut_at(stream, [min(end, len(stream)) for end in ends])]:
        link.new_store(random_store_length(rng), rng.randint(0, 99))
        check_stream(link, boundary, pieces)


def pieces_of_every_length(link, rng, k):
    """One stream in a hundred pieces, of 1 to 100 bytes, each length once."""
    boundary = random_boundary_for_blocks(rng, k)
    lengths = rng.sample(range(1, LONGEST_SHORT_PIECE + 1), LONGEST_SHORT_PIECE)
    link.new_store(random_store_length(rng), rng.randint(0, 99))
    check_stream(link, boundary, cut_in_lengths(stream_sown_about_blocks(rng, boundary, sum(lengths)), lengths))


def runs_of_own_letters(link, rng, k):
    """Boundaries that begin again within themselves, and long runs of what they begin with."""
    boundary = rng.choice(list(self_overlapping(k).values()))
    length = 60 + 15 * k  # a short boundary has more items in as many bytes
    stream = b""
    while len(stream) < length:
        run = boundary[:rng.choice((1, k - 1, k, rng.randint(1, k)))] or boundary
        stream += (run * LONGEST_SHORT_PIECE)[:rng.randint(1, LONGEST_SHORT_PIECE)] + rng.choice((b"", b"x", boundary))
    for pieces in [[stream[:length]], cut_short(rng, stream[:length]), cut_short(rng, stream[:length])]:
        link.new_store(random_store_length(rng), rng.randint(0, 99))
        check_stream(link, boundary, pieces)


def blocks_from_given_pair(link, rng, k):
    """Any match held before a few bytes or some blocks; the store's or the count's end may lie within one of them."""
    boundary = random_boundary_for_blocks(rng, k)
    link.new_store(random_store_length(rng), rng.randint(0, 99))
    for _ in range(20):
        end = rng.choice((2 * k, MESSAGE_LIMIT, MESSAGE_LIMIT + k, COUNT_CAP))
        gathered = max(k, end - rng.choice((0, *BORDERS)) - rng.randint(-2, 2))
        matched = rng.randint(0, k - 1)
        # The match goes on, or a shorter one does, for a while.
        piece = boundary[rng.choice((matched, rng.randint(0, k - 1))):][:rng.randint(0, k)]
        if rng.random() < 0.7:
            filler = random_filler(rng, boundary)
            distance = rng.choice((0, *BLOCKS)) + rng.randint(-2, 2)
            piece += filler * distance + random_lure_or_boundary(rng, boundary)
            piece += random_stretch(rng, filler, rng.randint(0, 100))
        link.call(boundary, piece, min(gathered, COUNT_CAP), matched)
