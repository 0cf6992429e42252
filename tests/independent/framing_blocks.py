"""What is hard for a search that passes over many bytes at once: false starts, the borders of its blocks, and
boundaries that begin again within themselves.

The papers know no blocks. Whoever searches in blocks has them 16, 32 or 64 bytes long, as likely as not; the tests look
at the borders of all of these and do not ask which there are.
"""

BLOCKS = (16, 32, 64)
BORDERS = (16, 32, 48, 64, 96, 128)  # the first two of each, and the third of 16 and of 32
FIBONACCI = b"abaababaabaababaababa"


def places_around(borders, reach):
    return [border + step for border in borders for step in range(-reach, reach + 1)]


def one_bit_off(byte, bit=0):
    return bytes([byte ^ 1 << bit])


def with_wrong_byte(boundary, place):
    return boundary[:place] + one_bit_off(boundary[place]) + boundary[place + 1:]


def false_starts(boundary):
    """By name, what a search takes for the boundary, or stumbles over, if it looks at too few bytes."""
    first, last = boundary[:1], boundary[-1:]
    between = b"".join(one_bit_off(byte) for byte in boundary[1:-1])
    lures = {"first": first, "last": last, "but-last": boundary[:-1], "but-first": boundary[1:],
             "ends": first + between + last}
    names = {}
    for name, lure in lures.items():
        if lure and boundary not in lure:
            names.setdefault(lure, name)  # of a short boundary some are the same
    return {name: lure for lure, name in names.items()}


def lures_with_right_ends(boundary):
    """All of the boundary but one byte, which is neither the first nor the last; then these two right alone."""
    return [with_wrong_byte(boundary, place) for place in range(1, len(boundary) - 1)] + (
        [false_starts(boundary)["ends"]] if len(boundary) > 3 else [])


def self_overlapping(k):
    """By name, boundaries of k bytes that look alike some places further on; short ones may be equal."""
    return {"a": b"a" * k, "a-b": b"a" * (k - 1) + b"b", "a-ba": (b"a" * k + b"ba")[-k:], "aab": (b"aab" * k)[:k],
            "ab": (b"ab" * k)[:k], "ab-b": (b"ab" * k)[:k - 1] + b"b", "fibonacci": FIBONACCI[:k],
            "halves": b"a" * (k - k // 2) + b"b" * (k // 2)}
