"""The reader's answer, and its 28 numbers as the C side gives them."""

from typing import NamedTuple, Tuple

KINDS = ("SessionOpenRequest", "SessionOpenResponse", "SessionOk", "Ok", "Advisory", "Request", "Response")
VALUES = ("status", "ID", "inResponseTo", "inRelationTo", "type")
NUMBERS = 28


class Value(NamedTuple):
    there: int = 0
    place: int = 0
    length: int = 0
    meaning: int = 0  # a number value: 1 it names a number; status: 1 Ok, 2 RedundantSession; type: 1 UnreadableMessage
    number: int = 0


NOT_THERE = Value()


class Answer(NamedTuple):
    refusal: int
    place: int
    kind: int  # from 1, in the order of KINDS; 0 on a refusal
    values: Tuple[Value, ...]  # in the order of VALUES

    def numbers(self):
        return (self.refusal, self.place, self.kind) + tuple(number for value in self.values for number in value)


def refused(refusal, place):
    return Answer(refusal, place, 0, (NOT_THERE,) * len(VALUES))


def kind_name(kind):
    return KINDS[kind - 1]
