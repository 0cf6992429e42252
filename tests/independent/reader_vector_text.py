"""The text form of the fixed reader vectors, one vector a line.

    NAME refusal=N place=P | MESSAGE
    NAME kind=KIND VALUE=PLACE+LENGTH:MEANING:NUMBER .. | MESSAGE

A value that is not on the line is not there. MEANING and NUMBER are those of the C side's answer (include/ali_link.h).

MESSAGE is all that follows, as it stands, but for bytes that are not printable ASCII, the backslash and a blank at the
end, which stand as \\xNN, and for repetitions, which stand as \\(UNIT*COUNT).
"""

import re
from typing import NamedTuple

from reader_answer import KINDS, NOT_THERE, VALUES, Answer, Value, kind_name, refused
from vector_text import fields

REPETITION = re.compile(rb"(.{1,16}?)\1{9,}", re.DOTALL)
ESCAPED = re.compile(rb"[^ -\[\]-~]")
WRITTEN = re.compile(r"\\x([0-9a-f]{2})|\\\(((?:[^\\*]|\\x[0-9a-f]{2})*)\*([0-9]+)\)|([^\\]+)")


class Vector(NamedTuple):
    name: str
    message: bytes
    answer: Answer


def plain_to_text(data):
    return ESCAPED.sub(lambda found: b"\\x%02x" % found.group()[0], data).decode("ascii")


def message_to_text(message):
    parts, done = [], 0
    for found in REPETITION.finditer(message):
        unit = found.group(1)
        if b"*" in unit:
            continue
        parts.append(plain_to_text(message[done:found.start()]))
        parts.append("\\(%s*%d)" % (plain_to_text(unit), len(found.group()) // len(unit)))
        done = found.end()
    text = "".join(parts) + plain_to_text(message[done:])
    return text[:-1] + "\\x20" if text.endswith(" ") else text


def text_to_message(text):
    parts, place = [], 0
    while place < len(text):
        found = WRITTEN.match(text, place)
        if not found:
            raise ValueError("no message: %r" % text[place:place + 40])
        code, unit, count, plain = found.groups()
        if code:
            parts.append(bytes.fromhex(code))
        elif plain:
            parts.append(plain.encode("ascii"))
        else:
            parts.append(text_to_message(unit) * int(count))
        place = found.end()
    return b"".join(parts)


def answer_to_text(answer):
    if answer.refusal:
        return "refusal=%d place=%d" % (answer.refusal, answer.place)
    values = ["%s=%d+%d:%d:%d" % (name, *value[1:]) for name, value in zip(VALUES, answer.values) if value.there]
    return " ".join(["kind=" + kind_name(answer.kind)] + values)


def answer_from_text(text):
    found = fields(text.split(" "))
    if "refusal" in found:
        return refused(int(found.pop("refusal")), int(found.pop("place")))
    kind = KINDS.index(found.pop("kind")) + 1
    values = {name: Value(1, *(int(number) for number in re.split("[+:]", value))) for name, value in found.items()}
    return Answer(0, 0, kind, tuple(values.get(name, NOT_THERE) for name in VALUES))


def vector_to_text(vector):
    return "%s %s | %s" % (vector.name, answer_to_text(vector.answer), message_to_text(vector.message))


def vector_from_text(line):
    head, message = line.split(" | ", 1)
    name, answer = head.split(" ", 1)
    return Vector(name, text_to_message(message), answer_from_text(answer))
