"""Two messages at once: what has to be alike in either order, from document 02 (M-113), the rulings on it and document
01 ("The session").

In Up two messages come with no call between, and each is an Ok or an Advisory that names something open: a push of
either kind, or the SessionOk. `check_pair` judges what becomes of them. The model has no part in the judgement: a
session is whatever has `call` and `state` as `session.Session` has them, and what is open is known from its calls and
from what they told.
"""

import functools
import pickle
from typing import NamedTuple

from checks import equal
from reader_answer import KINDS, NOT_THERE, VALUES, Answer, Value, kind_name
from replay_script import Replay
from session import (ACKNOWLEDGED, ADVISED, ADVISORY_ARRIVED, DISCONNECT, LOST, SEND_ADVISORY, SEND_RESPONSE,
                     SEND_RESPONSE_AGAIN, SEND_SESSION_OK, TIMED_OUT, UNMATCHED, UP, Session, number_named, value_of)

RESPONSE, ADVISORY_PUSH, SESSION_OK = THINGS = "Response", "Advisory push", "SessionOk"
OK, UNREADABLE, OTHER, NO_TYPE = MESSAGES = "Ok", "UnreadableMessage", "Advisory of another type", "Advisory of no type"

# By the kind of a message, where its number stands, and the type that stands beside it.
NUMBER_IN = {"Ok": "inResponseTo", "Advisory": "inRelationTo"}
TYPES = {UNREADABLE: Value(1, 0, 0, 1, 0), OTHER: Value(1, 0, 0, 0, 0), NO_TYPE: NOT_THERE}

CLOSINGS = (ACKNOWLEDGED, ADVISED, TIMED_OUT, LOST)


class Open(NamedTuple):
    """Something that is open and waits for an answer."""

    what: str
    number: int
    handle: int = 0
    resends_left: int = 0


class Message(NamedTuple):
    kind: str
    thing: Open

    @property
    def closes(self):
        """Whether what it names is closed by it; if not, it is a Response and is sent again."""
        return self.kind != UNREADABLE or not self.thing.resends_left

    def tells(self):
        """The events that are due where the thing is open (document 01)."""
        _, number, handle, _ = self.thing
        if not self.closes:
            return [(SEND_RESPONSE_AGAIN, number, handle)]
        if self.thing.what == SESSION_OK:
            return [] if self.kind == OK else [(ADVISORY_ARRIVED, 0, 0)]
        return [(ACKNOWLEDGED if self.kind == OK else ADVISED, number, handle)]

    def after_one_more_sending(self):
        return self._replace(thing=self.thing._replace(resends_left=self.thing.resends_left - 1))


@functools.lru_cache(maxsize=None)
def answer_handed_in(kind, number):
    """The reader's answer for a message of that kind."""
    message = "Ok" if kind == OK else "Advisory"
    values = {NUMBER_IN[message]: Value(1, 0, 0, 1, number), "type": TYPES.get(kind, NOT_THERE)}
    return Answer(0, 0, KINDS.index(message) + 1, tuple(values.get(name, NOT_THERE) for name in VALUES))


def number_answered(answer):
    """The number that an Ok or an Advisory names."""
    value = NUMBER_IN.get(kind_name(answer.kind))
    return number_named(value_of(answer, value)) if value else None


class Accounting(Replay):
    """Runs a session over lines, and knows what is open from the calls and from what they told alone."""

    def __init__(self, session_type=Session):
        super().__init__()
        self.session_type = session_type
        self.pushes = {}  # the open ones by number, in order of acceptance
        self.session_ok = None

    def call(self, what, *given):
        refusal, events = super().call(what, *given)
        if not refusal and self.closes_session_ok(what, given):
            self.session_ok = None
        for event in events:
            self.account(*event)
        return refusal, events

    def closes_session_ok(self, what, given):
        """A message that names it does, an Ok in Up with no event; so does the end of the link."""
        if what == "message":
            return self.session_ok and number_answered(given[0]) == self.session_ok.number
        return what in ("lost", "stop")

    def account(self, code, number, handle):
        if code == SEND_RESPONSE:
            self.pushes[number] = Open(RESPONSE, number, handle, self.site.resends)
        elif code == SEND_ADVISORY:
            self.pushes[number] = Open(ADVISORY_PUSH, number, handle)
        elif code == SEND_RESPONSE_AGAIN:
            push = self.pushes[number]
            self.pushes[number] = push._replace(resends_left=push.resends_left - 1)
        elif code in CLOSINGS:
            self.pushes.pop(number, None)
        elif code == SEND_SESSION_OK:
            self.session_ok = Open(SESSION_OK, number)
        elif code == DISCONNECT:
            self.session_ok = None

    def things(self):
        return [*self.pushes.values(), *([self.session_ok] if self.session_ok else [])]


# The judgement.


def told_by(session, calls):
    """What each call tells: its refusal, its events, and the state after it."""
    told = []
    for what, *given in calls:
        refusal, events = session.call(what, *given)
        told.append((refusal, events, session.state))
    return told


class Trial:
    """Messages handed in at once to a session that was kept, and how the session that they leave answers each of the
    later lists of calls."""

    def __init__(self, kept, messages, laters):
        session = pickle.loads(kept)
        told = told_by(session, [("message", answer_handed_in(kind, thing.number)) for kind, thing in messages])
        self.accepted = [(refusal, state) for refusal, _, state in told]
        self.events = [events for _, events, _ in told]
        left = pickle.dumps(session)
        self.answers = [told_by(pickle.loads(left), calls) for calls in laters]


def told_of_one_thing(first, second):
    """The events due of two messages that name one thing. If the first closes it, the second finds nothing open; if
    not, the second is judged as any message is."""
    if first.closes:
        return [first.tells(), [(UNMATCHED, 0, 0)]]
    return [first.tells(), second.after_one_more_sending().tells()]


def check_pair(kept, one, other, laters):
    """Raises where two messages, in one order and in the other, are not what the papers say. The session is handed over
    as `pickle` keeps it, so that each trial has one of its own."""
    there, back = Trial(kept, (one, other), laters), Trial(kept, (other, one), laters)
    for trial in (there, back):
        equal(trial.accepted, [(0, UP)] * 2, "refusals and states of two messages at once")
    if one.thing.number != other.thing.number:
        equal(there.events, back.events[::-1], "what each message tells")
    else:
        check_one_thing(kept, one, other, there, laters)
        check_one_thing(kept, other, one, back, laters)
    equal(there.answers, back.answers, "the answers to later calls")


def check_one_thing(kept, first, second, trial, laters):
    equal(trial.events, told_of_one_thing(first, second), "what two messages for one thing tell")
    if first.closes:
        equal(trial.answers, Trial(kept, (first,), laters).answers, "the answers to later calls after the first alone")
