"""The reader, written from the papers alone, to hold the real code against: `read_message(bytes) -> Answer`.

Three steps that know nothing of each other. The machine of `reader_machine` is fed the message and says where it died.
The places of the other refusals are told from what the machine noted on the way and from the bytes alone, and the
earliest place wins (document 01, "The restricted XML"). Only where there is no refusal does `reader_values` look for
the kind and the values.
"""

import re

from reader_answer import Answer, refused
from reader_machine import Machine
from reader_values import recognise

LONGEST_MESSAGE = 65520
MOST_LEVELS = 32
MOST_ATTRIBUTES = 16
LONGEST_PART = 64

TOO_LONG, NOT_WELL_FORMED, TOO_DEEP, TOO_MANY_ATTRIBUTES, LEFT_OUT, NO_MESSAGE, NAME_TOO_LONG = range(8, 15)

# At one place the one that stands first here goes first. 10 and 12 never meet another.
PRECEDENCE = (NOT_WELL_FORMED, TOO_MANY_ATTRIBUTES, NAME_TOO_LONG, TOO_DEEP, LEFT_OUT)

NAME_BYTES = re.compile(rb"[A-Za-z0-9_.-]*")
OPENINGS_LEFT_OUT = (b"<!DOCTYPE", b"<![CDATA[", b"<?")
DECLARATION = re.compile(rb"<\?xml[ \t\r\n]")


def run_machine(message):
    """The machine after as much of the message as it took, and the place at which it died, or None."""
    machine = Machine()
    for place, byte in enumerate(message):
        if not machine.feed(byte):
            return machine, place
    return machine, None


def places_of_9(message, machine, dead):
    if dead is not None:
        yield dead
    elif not machine.is_whole():
        yield len(message)


def places_of_10(machine):
    return (element.place for element in machine.elements if element.level > MOST_LEVELS)


def places_of_11(machine):
    return (attribute.place for attribute in machine.attributes if attribute.number > MOST_ATTRIBUTES)


def places_of_12(message, machine):
    for place in machine.markups:
        if message.startswith(OPENINGS_LEFT_OUT, place):
            if place > 0 or not DECLARATION.match(message):
                yield place


def places_of_14(message, machine):
    """The run of name bytes is taken from the message, so that it goes on past a byte that killed the machine."""
    for place in machine.parts:
        if NAME_BYTES.match(message, place).end() - place > LONGEST_PART:
            yield place


def first_refusal(message):
    """The number and place of the refusal that comes first, 13 aside; None where there is none."""
    if len(message) > LONGEST_MESSAGE:
        return TOO_LONG, 0
    machine, dead = run_machine(message)
    places = {
        NOT_WELL_FORMED: places_of_9(message, machine, dead),
        TOO_DEEP: places_of_10(machine),
        TOO_MANY_ATTRIBUTES: places_of_11(machine),
        LEFT_OUT: places_of_12(message, machine),
        NAME_TOO_LONG: places_of_14(message, machine),
    }
    found = [(place, PRECEDENCE.index(number), number) for number in places for place in places[number]]
    if not found:
        return None
    place, _, number = min(found)
    return number, place


def read_message(message):
    refusal = first_refusal(message)
    if refusal:
        return refused(*refusal)
    recognised = recognise(message)
    if recognised is None:
        return refused(NO_MESSAGE, 0)
    kind, values = recognised
    return Answer(0, 0, kind, values)
