"""Talks with tests/c/drive_read.c, whose head describes the requests and replies."""

import struct
from typing import NamedTuple, Tuple

from checks import Difference
from driver import Program, filled_answer, names_of_alarms
from reader import read_message
from reader_answer import NUMBERS
from reader_vector_text import message_to_text

ANSWER_SHORT = 3
PLACES_NEEDED = 40
LISTS_ABOUT_THE_LIMIT = (0, 1, 27, 28, 39, 40, 41, 64)  # places of answer lists
ALARMS = {
    1: "the answer list from place 28 on, or bytes around it, changed",
    2: "the message, or bytes around it, changed",
}


class Reply(NamedTuple):
    returned: int
    alarms: int
    numbers: Tuple[int, ...]  # the first 28 places, whether or not so many were lent


class ReadDriver(Program):
    def read_message(self, message, places, answer_seed):
        self.send(struct.pack("<IBI", len(message), places, answer_seed) + message)
        returned, alarms = struct.unpack("<IB", self.read(5))
        return Reply(returned, alarms, struct.unpack("<%dQ" % NUMBERS, self.read(8 * NUMBERS)))


def shortened(message):
    text = message_to_text(message)
    return text if len(text) <= 300 else text[:300] + "..."


def check_call(driver, message, expected, places=PLACES_NEEDED, answer_seed=0):
    """One call of the real code. What is due where too few places are lent does not depend on the message."""
    reply = driver.read_message(message, places, answer_seed)
    refused = places < PLACES_NEEDED
    due = filled_answer(NUMBERS, answer_seed) if refused else expected.numbers()
    complaints = []
    if reply.alarms:
        complaints.append(names_of_alarms(ALARMS, reply.alarms))
    if reply.returned != (ANSWER_SHORT if refused else 0):
        complaints.append("returned %d" % reply.returned)
    if reply.numbers != due:
        wrong = [place for place in range(NUMBERS) if reply.numbers[place] != due[place]]
        wish = "no change" if refused else "%s" % (due,)
        complaints.append("places %s: %s, expected %s" % (wrong, reply.numbers, wish))
    if complaints:
        raise Difference("places=%d message of %d: %s: %s" % (
            places, len(message), shortened(message), "; ".join(complaints)))


def check_message(driver, message, places=PLACES_NEEDED, answer_seed=0):
    """One call of the real code, held against the model. Gives what the model answers."""
    expected = read_message(message)
    check_call(driver, message, expected, places, answer_seed)
    return expected
