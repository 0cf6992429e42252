"""Random framing cases. Each takes a link, a source of randomness and a boundary length, and raises on a difference.

Streams are spelled in one to three letters and sown with boundaries and parts of them, so that matches begin, fail and
overlap all the time; the driver fills stores with bytes that no such stream contains.
"""

from checks import Difference
from framing import COUNT_CAP, MESSAGE_LIMIT, NO_ITEM, PLACES_NEEDED, STORE_NEEDED, TOO_LONG
from framing_block_cases import (blocks_from_given_pair, blocks_in_vain, false_starts_about_blocks,
                                 pieces_ending_about_blocks, pieces_of_every_length, runs_of_own_letters)
from framing_streams import (LONGEST_STORE, check_stream, cut_at, random_boundary, random_cuts, random_letters,
                             random_store_length, random_stream)

LONGEST_PIECE = 140000


def short_stream_every_cut(link, rng, k):
    boundary, alphabet = random_boundary(rng, k)
    stream = random_stream(rng, boundary, alphabet, rng.randint(0, 2 * k + 12))
    cuttings = [cut_at(stream, [place]) for place in range(len(stream) + 1)]
    cuttings.append([stream[i:i + 1] for i in range(len(stream))])
    cuttings += [random_cuts(rng, stream) for _ in range(3)]
    store_length = random_store_length(rng)
    fresh_stores = rng.random() < 0.8  # otherwise the remains of one cutting lie under the next
    for number, pieces in enumerate(cuttings):
        if number == 0 or fresh_stores:
            link.new_store(store_length, rng.randint(0, 99))
        check_stream(link, boundary, pieces)


def longer_stream(link, rng, k):
    boundary, alphabet = random_boundary(rng, k)
    stream = random_stream(rng, boundary, alphabet, rng.randint(50, 400))
    for pieces in [[stream], random_cuts(rng, stream), random_cuts(rng, stream)]:
        link.new_store(random_store_length(rng), rng.randint(0, 99))
        check_stream(link, boundary, pieces)


def bytes_of_every_value(link, rng, k):
    values = bytes(range(256))
    boundary = random_letters(rng, values, k)
    stream = random_stream(rng, boundary, values, rng.randint(1, 600))
    for pieces in [[stream], random_cuts(rng, stream)]:
        link.new_store(random_store_length(rng), rng.randint(0, 99))
        check_stream(link, boundary, pieces)


def body_without_boundary(rng, boundary, length):
    """So many bytes, ending in part of a boundary, in which and after which no boundary ends too soon."""
    unit = random_letters(rng, b"pqrst", 7)
    lure = boundary[:rng.randint(0, len(boundary) - 1)] if rng.random() < 0.5 else b""
    if (lure + boundary).find(boundary) < len(lure):
        lure = b""
    return (unit * (length // 7 + 1))[:length - len(lure)] + lure


def stream_about_limits(link, rng, k):
    """Items about both limits, cut near them, one after another over the same store."""
    boundary, _ = random_boundary(rng, k)
    limit = rng.choice((MESSAGE_LIMIT, MESSAGE_LIMIT, MESSAGE_LIMIT + k, STORE_NEEDED, 65936))
    length = limit + rng.randint(-2, 3)
    stream = body_without_boundary(rng, boundary, length) + boundary
    longest_message = body_without_boundary(rng, boundary, MESSAGE_LIMIT)
    stream += rng.choice((b"", boundary, b"x" + boundary, longest_message + boundary))
    stream += boundary[:rng.randint(0, k - 1)]
    cuts = [rng.choice((MESSAGE_LIMIT, MESSAGE_LIMIT + k, length, length + k)) + rng.randint(-3, 3)
            for _ in range(rng.randint(0, 4))]
    cuts += [rng.randint(0, len(stream)) for _ in range(rng.randint(0, 2))]
    link.new_store(random_store_length(rng), rng.randint(0, 99))
    check_stream(link, boundary, cut_at(stream, [min(cut, len(stream)) for cut in cuts]))


def stream_by_bytes_over_limit(link, rng, k):
    """The bytes about the limit one at a time, each call's effect on the store seen by itself."""
    boundary, alphabet = random_boundary(rng, k)
    begin = MESSAGE_LIMIT - rng.randint(1, 4)
    stream = body_without_boundary(rng, boundary, begin) + random_stream(rng, boundary, alphabet, 2 * k + 10)
    link.new_store(random_store_length(rng), rng.randint(0, 99))
    check_stream(link, boundary, cut_at(stream, range(begin, len(stream))))


def random_count(rng, k):
    near = rng.choice((0, k, MESSAGE_LIMIT, MESSAGE_LIMIT + k, STORE_NEEDED, LONGEST_STORE, 2**31, COUNT_CAP))
    if rng.random() < 0.1:
        near = rng.randint(0, COUNT_CAP)
    return min(max(near + rng.randint(-20, 20), 0), COUNT_CAP)


def random_pair(rng, k):
    gathered = random_count(rng, k)
    choice = rng.random()
    if choice < 0.8 and k:
        return gathered, min(rng.randint(0, k - 1), gathered)
    if choice < 0.95:
        return gathered, rng.randint(max(k - 2, 0), k + 2)
    return gathered, rng.choice((COUNT_CAP, 65536, 65537, 256, gathered, min(gathered + 1, COUNT_CAP)))


def given_pairs(link, rng, k):
    """Pairs that mostly no history gives, over a store that is kept."""
    boundary, alphabet = random_boundary(rng, k)
    link.new_store(random_store_length(rng), rng.randint(0, 99))
    for _ in range(12):
        gathered, matched = random_pair(rng, k)
        piece = boundary[matched:][:rng.randint(0, k)] if rng.random() < 0.5 else b""
        piece += random_stream(rng, boundary, alphabet, rng.randint(0, 3 * k))
        link.call(boundary, piece, gathered, matched, rng.randint(PLACES_NEEDED, 64), rng.randint(0, 99))


def long_piece_from_given_pair(link, rng, k):
    boundary, alphabet = random_boundary(rng, k)
    link.new_store(random_store_length(rng), rng.randint(0, 99))
    for _ in range(2):
        gathered, matched = random_pair(rng, k)
        length = rng.choice((rng.randint(0, LONGEST_PIECE - 200), MESSAGE_LIMIT + rng.randint(-20, 20)))
        piece = body_without_boundary(rng, boundary, max(length, k)) + random_stream(rng, boundary, alphabet, 2 * k)
        link.call(boundary, piece, gathered, matched)


def stream_over_cap(link, rng, k):
    """Calls that hand their numbers on while the count comes to its cap, until an item ends it."""
    boundary, alphabet = random_boundary(rng, k)
    link.new_store(random_store_length(rng), rng.randint(0, 99))
    gathered, matched = COUNT_CAP - rng.randint(0, 60), rng.randint(0, k - 1)
    stream = b"z" * rng.randint(0, 30) + random_stream(rng, boundary, alphabet, 4 * k)
    stream += b"z" * rng.randint(0, 30) + boundary
    for piece in cut_at(stream, [rng.randint(0, 4 * k) for _ in range(6)]):
        done = link.call(boundary, piece, gathered, matched)
        _, kind, _, gathered, matched = done.numbers
        if kind != NO_ITEM:
            if kind != TOO_LONG:
                raise Difference("item %d at the cap, expected %d" % (kind, TOO_LONG))
            return
    raise Difference("no item at the cap, though the stream ends in a boundary")


def anything_at_all(link, rng, k):
    """Every length and number right, or just wrong, or far off: which refusal, and is anything changed?"""
    for _ in range(6):
        length = rng.choice((k, k, k, 0, 17, rng.randint(0, 64)))
        boundary = random_letters(rng, b"ab", length)
        link.new_store(rng.choice((STORE_NEEDED, LONGEST_STORE, STORE_NEEDED - 1, 0, rng.randint(0, LONGEST_STORE))),
                       rng.randint(0, 99))
        gathered, matched = random_pair(rng, length)
        piece = rng.choice((b"", random_letters(rng, b"ab", 30) + boundary + b"rest", b"y" * LONGEST_STORE))
        places = rng.choice((PLACES_NEEDED, PLACES_NEEDED, PLACES_NEEDED - 1, rng.randint(0, 64)))
        link.call(boundary, piece, gathered, matched, places, rng.randint(0, 99))


STREAM_CASES = (short_stream_every_cut, longer_stream, bytes_of_every_value, stream_about_limits,
                stream_by_bytes_over_limit, false_starts_about_blocks, pieces_ending_about_blocks,
                blocks_in_vain, pieces_of_every_length, runs_of_own_letters)

# A round of cases; a round for each boundary length from 1 to 16 in turn. Cheap and telling ones come more often.
ROUND = (short_stream_every_cut,) * 5 + (longer_stream,) * 2 + (bytes_of_every_value,) + (stream_about_limits,) * 4 + (
    stream_by_bytes_over_limit,) + (given_pairs,) * 3 + (long_piece_from_given_pair, stream_over_cap) + (
    anything_at_all,) * 2 + (false_starts_about_blocks, pieces_ending_about_blocks, blocks_in_vain,
                             pieces_of_every_length, runs_of_own_letters, blocks_from_given_pair)


def random_case(number):
    """The case and the boundary length that stand at this number."""
    return ROUND[number % len(ROUND)], 1 + number // len(ROUND) % 16
