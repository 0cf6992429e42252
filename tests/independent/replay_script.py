"""The program `replay` as the page about interfaces has it: a script in, what the session tells out.

    python3 tests/independent/replay_script.py < script

runs the model as a program, so that the comparison itself can be tried without the real one.
"""

import functools
import re
import sys

from reader import read_message
from session import GREATEST_NUMBER, NEW, OLD, Session, Site

LONGEST_LINE = 65520
SITE_WHERE_ABSENT = Site(interval=100)
MOST_TICKS = 1000000

NUMBER = re.compile(rb"0|[1-9][0-9]*")
MOST_DIGITS = 10  # with more than these a number is beyond every range; Python need not work it out
BEYOND_ALL = 10**MOST_DIGITS

WITHOUT_NUMBER = {b"connected": "connected", b"lost": "lost", b"stop": "stop"}
WITH_NUMBER = {b"push": "push_response", b"advise": "push_advisory", b"unreadable": "unreadable"}

read = functools.lru_cache(maxsize=1 << 14)(read_message)  # a script reads the same few messages again and again


def number_from(text):
    """The number that stands there in decimal without leading zeros; None where none does."""
    if not NUMBER.fullmatch(text):
        return None
    return int(text) if len(text) <= MOST_DIGITS else BEYOND_ALL


def number_between(text, least, most):
    number = number_from(text)
    return number if number is not None and least <= number <= most else None


# The settings, each by the field of the site that it sets; what stands after the one space gives its value, or None
# where the setting is not well formed.
SETTINGS = {b"interval": number_from, b"conduct": {b"new": NEW, b"old": OLD}.get, b"resends": number_from}


def lines_of(script):
    """A last line without LF counts; after the last LF no line begins unless something stands there."""
    lines = script.split(b"\n")
    return lines if lines[-1] else lines[:-1]


class Replay:
    session_type = Session  # a wrong one takes its place where the tests themselves are tested

    def __init__(self):
        self.site = SITE_WHERE_ABSENT
        self.session = None  # made where the settings end
        self.line_number = self.calls = 0
        self.output = []

    def take_line(self, line):
        self.line_number += 1
        if not line:
            return
        if self.session is None:
            if self.take_setting(line):
                return
            self.end_settings()
        if not self.session.refusal and (len(line) > LONGEST_LINE or not self.take_call(line)):
            self.output.append("line %d bad" % self.line_number)

    def take_setting(self, line):
        """Says whether the line is a well-formed setting. A number in it may be any: it is the making that refuses."""
        word, _, text = line.partition(b" ")
        value = SETTINGS[word](text) if word in SETTINGS and len(line) <= LONGEST_LINE else None
        if value is None:
            return False
        self.site = self.site._replace(**{word.decode("ascii"): value})
        return True

    def end_settings(self):
        self.session = self.session_type(self.site)
        if self.session.refusal:
            self.output.append("stop %d" % self.session.refusal)

    def take_call(self, line):
        """Says whether the line is a call, or sets the last number."""
        word, space, text = line.partition(b" ")
        if not space:
            return self.take_word(word)
        if word == b"message":
            self.take_message(text)
            return True
        if word == b"tick":
            ticks = number_between(text, 1, MOST_TICKS)
            self.call_ticks(ticks or 0)
            return ticks is not None
        return self.take_numbered(word, number_between(text, 0, GREATEST_NUMBER))

    def take_word(self, word):
        if word == b"tick":
            self.call_ticks(1)
        elif word in WITHOUT_NUMBER:
            self.call(WITHOUT_NUMBER[word])
        else:
            return False
        return True

    def take_numbered(self, word, number):
        if number is None:
            return False
        if word == b"last":
            self.session.last = number
        elif word in WITH_NUMBER:
            self.call(WITH_NUMBER[word], number)
        else:
            return False
        return True

    def take_message(self, message):
        answer = read(message)
        if answer.refusal:
            self.call("unreadable", answer.refusal)
        else:
            self.call("message", answer)

    def call_ticks(self, many):
        for _ in range(many):
            self.call("tick")

    def call(self, what, *given):
        """One call. A kind of replay that watches the session takes the place of this."""
        self.calls += 1
        refusal, events = self.session.call(what, *given)
        if refusal:
            self.output.append("%d refused %d" % (self.calls, refusal))
        for event in events:
            self.output.append("%d %d %d %d" % (self.calls, *event))
        return refusal, events

    def run(self, script):
        """The whole output of a whole script."""
        for line in lines_of(script):
            self.take_line(line)
        if self.session is None:
            self.end_settings()
        if not self.session.refusal:
            self.output.append("end %s %d" % (self.session.state, len(self.session.pushes)))
        return "".join(line + "\n" for line in self.output).encode("ascii")


def replay(script):
    return Replay().run(script)


if __name__ == "__main__":
    sys.stdout.buffer.write(replay(sys.stdin.buffer.read()))
