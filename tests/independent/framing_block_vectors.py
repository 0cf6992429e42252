"""Fixed framing vectors about the borders of blocks (`framing_blocks`), counted from a piece's begin and from its end.

A search in blocks can lose what stands at a block's last or first place, in the last block of a piece, or behind bytes
that another way of searching has looked at. A line has many calls: each is a place of its own.
"""

import itertools

from framing import MESSAGE_LIMIT
from framing_blocks import (BLOCKS, BORDERS, false_starts, lures_with_right_ends, one_bit_off, places_around,
                            self_overlapping, with_wrong_byte)
from framing_vectors import Session, fed, in_pieces, spelled

BOUNDARIES = (b"#", b"\r\n", b"</a>", b"<!--8-->", b"abcdefghijklmno", b"abcdefghijklmnop")
NEXT_TO_BORDERS = places_around(BORDERS, 1)
ABOUT_BORDERS = places_around(BORDERS, 2)
REST = b"z" * 90
OVERLAPPING = {3: "ab", 4: "ab", 5: "aab", 8: "fibonacci", 12: "fibonacci", 16: "a-b"}  # a boundary for each length
BOUNDARIES_IN_VAIN = [boundary for k, name in OVERLAPPING.items()
                      for boundary in (b"abcdefghijklmnop"[:k], self_overlapping(k)[name])]


def filler(number, length):
    """Three letters over and over, other ones for each call, so that bytes not laid or laid at a wrong place show."""
    begin = 3 * number % 21
    return (b"ABCDEFGHIJKLMNOPQRSTU"[begin:begin + 3] * (length // 3 + 1))[:length]


def called_with(name, boundary, pieces, gathered=0, matched=0):
    """Each piece with the same numbers held, whatever the call before it gave."""
    session = Session(name, boundary)
    for piece in pieces:
        session.call(piece, gathered, matched)
    return session.vector()


def false_starts_at_borders():
    """A false start at every place about a border, and the boundary right behind it or up to two bytes later.

    The piece goes on for more than a block, so that whoever looks at whole blocks only looks at these places so.
    """
    for boundary in BOUNDARIES:
        for name, lure in false_starts(boundary).items():
            yield called_with("border-k%d-%s" % (len(boundary), name), boundary, [
                filler(number, place) + lure + filler(number, number % 3) + boundary + REST
                for number, place in enumerate(NEXT_TO_BORDERS if name in ("last", "but-first") else ABOUT_BORDERS)])
    for k in (4, 16):
        boundary = self_overlapping(k)["halves"]  # a place before it both its first and its last byte are right
        yield called_with("border-k%d-halves" % k, boundary, [
            filler(number, place) + boundary[:1] * (1 + number % 2) + boundary + REST
            for number, place in enumerate(NEXT_TO_BORDERS)])


def boundaries_at_borders():
    """The boundary about a border; then about as many places behind a false start, where a search may begin anew."""
    for boundary in BOUNDARIES:
        k = len(boundary)
        yield called_with("border-k%d-alone" % k, boundary, [
            filler(number, place) + boundary + REST for number, place in enumerate(NEXT_TO_BORDERS)])
        if k > 1:
            yield called_with("border-k%d-from-false-start" % k, boundary, [
                filler(number, number % 8) + boundary[:1] + filler(number, place - 1) + boundary + REST
                for number, place in enumerate(NEXT_TO_BORDERS)])


def wrong_bytes_at_borders():
    """All of the boundary but one byte, which is one bit off: each byte of it in turn. Then comes the boundary."""
    for boundary in BOUNDARIES:
        k = len(boundary)
        yield called_with("border-k%d-wrong-byte" % k, boundary, [
            filler(number, place) + with_wrong_byte(boundary, number % k) + filler(number, number // k % 2) + boundary
            for number, place in enumerate(ABOUT_BORDERS)])


def ends_at_borders():
    """The boundary begins at a place about a border, and the piece ends within it or right behind."""
    for boundary in BOUNDARIES:
        k = len(boundary)
        for behind in sorted({0, 1, k // 2, k - 1, k, k + 1}):
            # What is nearly complete, or just so, is most easily lost: it gets every place.
            places = ABOUT_BORDERS if behind in (k - 1, k) else NEXT_TO_BORDERS[behind % 2::2]
            yield called_with("end-k%d-behind-%d" % (k, behind), boundary, [
                filler(number, place) + (boundary + b"z")[:behind] for number, place in enumerate(places)])


def pieces_of_whole_blocks():
    """Every beginning of the boundary ends a piece that is some blocks long.

    What is read behind the end of such a piece would go on with the boundary where that is `ab` or `a` repeated.
    """
    four, sixteen = self_overlapping(4), self_overlapping(16)
    for name, boundary in {"k4": b"</a>", "k8": b"<!--8-->", "k16": b"abcdefghijklmnop", "k4-ab": four["ab"],
                           "k16-ab": sixteen["ab"], "k16-a": sixteen["a"]}.items():
        for length in (16, 32, 64, 128):
            yield called_with("whole-blocks-%s-%d" % (name, length), boundary, [
                filler(behind, length - behind) + boundary[:behind] for behind in range(1, len(boundary) + 1)])


def fillers_one_bit_off():
    """All bytes before the boundary are one bit off from its first byte, or from its last one."""
    for boundary in (b"#", b"</a>", b"abcdefghijklmnop"):
        for name, byte in {"first": boundary[0], "last": boundary[-1]}.items():
            unit = b"".join(one_bit_off(byte, bit) for bit in range(8))
            yield called_with("one-bit-off-k%d-%s" % (len(boundary), name), boundary, [
                (unit * 8)[:place] + boundary for place in (15, 16, 31, 32, 63, 64)])


def shorter_matches(boundary, matched):
    """The longest, a middle and the shortest length of the matched bytes' own tails that begin the boundary."""
    lengths = [length for length in range(matched - 1, 0, -1) if boundary[:matched].endswith(boundary[:length])]
    return sorted({lengths[0], lengths[len(lengths) // 2], lengths[-1]}) if lengths else []


def seams_of(boundary, matched):
    """Beginnings of a piece that finds so many bytes matched: the match goes on, fails or falls back."""
    k = len(boundary)
    rest = boundary[matched:]
    seams = [rest[:going_on] for going_on in sorted({0, 1, len(rest) // 2, len(rest) - 1, len(rest)})]
    seams += [boundary[shorter:] for shorter in shorter_matches(boundary, matched)]
    seams += [rest[:going_on] + boundary for going_on in sorted({0, len(rest) // 2, len(rest) - 1})]
    seams += [filler(0, wait) + boundary for wait in sorted({1, k - 2, k - 1, k})]
    seams += [filler(0, wait) + boundary[:-1] for wait in (0, 1)]
    return list(dict.fromkeys(seams))


def seams_before_borders():
    """Something is held, and goes on, fails or falls back. Then the piece ends, or a boundary stands about a border."""
    for boundary in BOUNDARIES[1:] + (b"aabaabaa", b"abababab", b"aaaaaaaaaaaaaaab", self_overlapping(16)["fibonacci"]):
        k = len(boundary)
        for matched in sorted({1, k // 2, k - 1}):
            pieces = [boundary[shorter:-1] for shorter in shorter_matches(boundary, matched)]
            for number, seam in enumerate(seams_of(boundary, matched)):
                # 7 and the number of places share no factor, so that each place gets its turn.
                place = NEXT_TO_BORDERS[7 * number % len(NEXT_TO_BORDERS)]
                pieces.append(seam + filler(number, place - len(seam)) + boundary)
            yield called_with("seam-%s-m%d" % (boundary.hex(), matched), boundary, pieces, matched, matched)


def blocks_counted_from_seams():
    """A held match fails at once. However much of the piece is looked at for its sake, the blocks may begin there."""
    for boundary in (b"</a>", b"abcdefghijklmnop"):
        k = len(boundary)
        for border in (16, 32, 64):
            yield called_with("seam-k%d-then-%d" % (k, border), boundary, [
                filler(place, place) + boundary + REST for place in range(border - 1, border + k + 2)], k - 1, k - 1)


def overlaps_at_borders():
    """Boundaries that begin again within themselves, behind runs of their own letters about as long as a block."""
    for k in (4, 16):
        for name, boundary in self_overlapping(k).items():
            for number, run in enumerate(sorted({boundary[:1], boundary[:-1]})):
                stream = (run * 33)[:33 - number] + boundary + (run * 66)[:66 - k - number] + boundary
                yield fed("own-letters-k%d-%s-%d" % (k, name, number), boundary, *in_pieces(stream, 47 + k + number))


def store_ends_within_a_block():
    """So many bytes are left in what the store keeps; the piece goes on beyond it."""
    for boundary in (b"#", b"</a>", b"abcdefghijklmnop"):
        end = MESSAGE_LIMIT + len(boundary)
        session = Session("lay-within-block-k%d" % len(boundary), boundary, 70000)
        for left in [0, 1] + places_around((16, 32, 64), 1):
            session.call(spelled(left + 65) + boundary, end - left, 0)
            session.call(spelled(100)[::-1], end - left, len(boundary) - 1)
        yield session.vector()


def sown(boundary, place, lures, number):
    """A piece up to the end of the boundary, which begins at the place; before it stand the lures, each at its own."""
    piece = bytearray(filler(number, 1) * place + boundary)
    for at, lure in lures.items():
        piece[at:at + len(lure)] = lure
    if piece.find(boundary) != place:
        raise ValueError("a boundary begins before place %d in %s" % (place, bytes(piece)))
    return bytes(piece)


def place_of_lure(boundary, lure, block, place, turn):
    """In the block before the one that the place is in: the first place, a middle one, or the last that has room."""
    begin = place // block * block - block
    # A lure right before a boundary may make another boundary with it.
    apart = 0 if (lure + boundary).find(boundary) == len(lure) else 1
    room = min(block - 1, place - apart - len(lure) - begin)
    return begin + (0, room // 2, room)[turn % 3]


def blocks_in_vain():
    """A lure makes a block worth a closer look, and it holds nothing. The next block has the boundary: at its first
    place, behind every lure of a short boundary and some of a long one in turn; at its second place; at its last."""
    for boundary in BOUNDARIES_IN_VAIN:
        lures = lures_with_right_ends(boundary)
        turns = itertools.cycle(lures)
        for block in BLOCKS:
            pieces = []
            for border in (block, 2 * block, 3 * block):
                for step in [0] * (len(lures) if len(boundary) < 8 else 3) + [1, block - 1]:
                    lure, turn = next(turns), len(pieces) + border // block
                    at = place_of_lure(boundary, lure, block, border + step, turn)
                    pieces.append(sown(boundary, border + step, {at: lure}, turn) + REST)
            yield called_with("in-vain-%s-%d" % (boundary.decode(), block), boundary, pieces)


def lures_over_borders():
    """The lure begins at a block's last place and goes on as the boundary, which begins at the next block's first."""
    for k in OVERLAPPING:
        boundary = b"a" + b"b" * (k - 1)  # with an `a` before it all but the second byte is right a place too soon
        yield called_with("in-vain-over-border-k%d" % k, boundary, [
            filler(number, 1) * (number * block - 1) + boundary[:1] + boundary + REST
            for block in BLOCKS for number in (1, 2, 3)])


def two_blocks_in_vain():
    """One after the other. Whoever begins a place late behind each of them misses the second place, not the first."""
    for boundary in BOUNDARIES_IN_VAIN:
        turns = itertools.cycle(lures_with_right_ends(boundary))
        pieces = []
        for number, block in enumerate(BLOCKS):
            for place in ((2 + number % 2) * block, (2 + number % 2) * block + 1):
                first, second, turn = next(turns), next(turns), len(pieces)
                at = place_of_lure(boundary, second, block, place, turn)
                first_at = place // block * block - 2 * block + (block - len(boundary)) // 2
                pieces.append(sown(boundary, place, {first_at: first, at: second}, turn) + REST)
        yield called_with("in-vain-twice-%s" % boundary.decode(), boundary, pieces)


def last_blocks_in_vain():
    """The lure is in the last whole block, the boundary right behind that block. The piece ends with the boundary, a
    byte behind it, as far behind as leaves no room for another, or a byte before its end."""
    for boundary in BOUNDARIES_IN_VAIN:
        k = len(boundary)
        turns = itertools.cycle(lures_with_right_ends(boundary))
        pieces = []
        for block in BLOCKS:
            for number, behind in enumerate((0, 1, k - 1, -1)):
                lure, turn, border = next(turns), len(pieces), block * (1 + number % 3)
                at = place_of_lure(boundary, lure, block, border, turn)
                pieces.append((sown(boundary, border, {at: lure}, turn) + REST)[:border + k + behind])
        yield called_with("in-vain-last-%s" % boundary.decode(), boundary, pieces)


BLOCK_GROUPS = (false_starts_at_borders, boundaries_at_borders, wrong_bytes_at_borders, ends_at_borders,
                pieces_of_whole_blocks, fillers_one_bit_off, seams_before_borders, blocks_counted_from_seams,
                overlaps_at_borders, store_ends_within_a_block, blocks_in_vain, lures_over_borders,
                two_blocks_in_vain, last_blocks_in_vain)
