"""The text form of the fixed framing vectors, one vector a line.

    NAME boundary=BYTES store=LENGTH fill=SEED | CALL | CALL ...

The calls of a line share one store, which is filled once from SEED (the head of tests/c/drive_gather.c says how). Each
call's answer list is filled from the same SEED. A CALL is

    g=G m=M places=P piece=BYTES -> REFUSAL
    g=G m=M places=P piece=BYTES -> 0 taken=T item=I length=L g=G m=M writes=N

A refused call changes nothing. Otherwise the five numbers are the start of the answer list, the rest of which is
unchanged, and N bytes of the piece's start are laid into the store at the given g, the rest of which is unchanged.

BYTES are parts joined by commas, each hexadecimal, or hexadecimal*COUNT for a repetition; `-` for none.
"""

import re
from typing import List, NamedTuple, Optional, Tuple

ANSWER_NAMES = ("taken", "item", "length", "g", "m")
REPETITION = re.compile(rb"(.{1,8}?)\1{7,}", re.DOTALL)


class Call(NamedTuple):
    gathered: int
    matched: int
    places: int
    piece: bytes
    refusal: int
    numbers: Optional[Tuple[int, ...]]
    written: int


class Vector(NamedTuple):
    name: str
    boundary: bytes
    store_length: int
    fill_seed: int
    calls: List[Call]


def bytes_to_text(data):
    parts = []
    done = 0
    for found in REPETITION.finditer(data):
        if found.start() > done:
            parts.append(data[done:found.start()].hex())
        unit = found.group(1)
        parts.append("%s*%d" % (unit.hex(), len(found.group()) // len(unit)))
        done = found.end()
    if done < len(data):
        parts.append(data[done:].hex())
    return ",".join(parts) or "-"


def text_to_bytes(text):
    if text == "-":
        return b""
    data = []
    for part in text.split(","):
        unit, _, count = part.partition("*")
        data.append(bytes.fromhex(unit) * int(count or 1))
    return b"".join(data)


def call_to_text(call):
    given = "g=%d m=%d places=%d piece=%s" % (call.gathered, call.matched, call.places, bytes_to_text(call.piece))
    if call.numbers is None:
        return "%s -> %d" % (given, call.refusal)
    numbers = " ".join("%s=%d" % pair for pair in zip(ANSWER_NAMES, call.numbers))
    return "%s -> %d %s writes=%d" % (given, call.refusal, numbers, call.written)


def vector_to_text(vector):
    head = "%s boundary=%s store=%d fill=%d" % (
        vector.name, bytes_to_text(vector.boundary), vector.store_length, vector.fill_seed)
    return " | ".join([head] + [call_to_text(call) for call in vector.calls])


def fields(words):
    """The words `name=value` as a dictionary; that no name stands twice keeps a damaged line from passing."""
    pairs = [word.split("=", 1) for word in words]
    found = dict(pairs)
    if len(found) != len(pairs):
        raise ValueError("a name stands twice in %r" % (words,))
    return found


def call_from_text(text):
    given_text, expected_text = text.split(" -> ")
    given = fields(given_text.split())
    refusal, *expected_words = expected_text.split()
    numbers, written = None, 0
    if expected_words:
        expected = fields(expected_words)
        numbers = tuple(int(expected[name]) for name in ANSWER_NAMES)
        written = int(expected["writes"])
    return Call(int(given["g"]), int(given["m"]), int(given["places"]), text_to_bytes(given["piece"]),
                int(refusal), numbers, written)


def vector_from_text(line):
    head, *calls = line.rstrip("\n").split(" | ")
    name, *words = head.split()
    head_fields = fields(words)
    return Vector(name, text_to_bytes(head_fields["boundary"]), int(head_fields["store"]), int(head_fields["fill"]),
                  [call_from_text(call) for call in calls])
