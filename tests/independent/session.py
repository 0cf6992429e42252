"""The provider's session, written from the papers alone, to hold the real code against.

Document 01 ("The session", "Numbers of refusal"), document 02 (M-105, M-110) and the rulings on the session, against an
absolute clock: the session numbers the ticks it accepts, and whatever waits is noted with the number of the tick at
which it is due, or of the ticks at which it was sent. Nothing is counted down, so a mistake in a countdown is not made
here too.

    session = Session(Site(interval))    session.refusal is 4 or 18 where the making was refused
    session.call("tick")                 the refusal, or 0, and the list of events

The other calls: "connected", "lost", "stop", "push_response" and "push_advisory" with the host's handle, "message" with
the reader's answer, "unreadable" with a refusal handed in.
"""

import dataclasses
import itertools
from typing import List, NamedTuple

from reader_answer import VALUES, kind_name

STATES = WAITING, CONNECTING, OPENING, CONFIRMING, UP, STOPPED = (
    "waiting", "connecting", "opening", "confirming", "up", "stopped")
LINKED = (OPENING, CONFIRMING, UP)

(CONNECT, SEND_OPEN_REQUEST, SEND_SESSION_OK, SEND_RESPONSE, SEND_RESPONSE_AGAIN, SEND_ADVISORY, DISCONNECT, IS_UP,
 ACKNOWLEDGED, ADVISED, TIMED_OUT, LOST, REQUEST_ARRIVED, OUT_OF_PLACE, UNMATCHED, UNREADABLE, ADVISORY_ARRIVED,
 SEND_ALERT, SEND_GOING_OUT) = range(1, 20)
TAKE_A_NUMBER = (SEND_OPEN_REQUEST, SEND_SESSION_OK, SEND_RESPONSE, SEND_ADVISORY, SEND_ALERT, SEND_GOING_OUT)

LIST_SHORT, BAD_INTERVAL, IS_STOPPED, DOES_NOT_FIT, TABLE_FULL = range(3, 8)
READER_REFUSALS = range(8, 15)
BAD_RESENDS = 18

CONDUCTS = NEW, OLD = "new", "old"

PLACES_NEEDED = 40
LEAST_INTERVAL, MOST_INTERVAL = 21, 6000
RESENDS_WHERE_NONE_ARE_NAMED, MOST_RESENDS = 1, 3
FIGURES = range(MOST_RESENDS + 1)  # of resends, that a site may choose
SENDINGS_OF_AN_ADVISORY = 1
MOST_PUSHES = 32
GREATEST_NUMBER = 4294967295
TICKS_TO_ANSWER = 20
TICKS_TO_WAIT = 300

FITS = {
    "tick": (WAITING, CONNECTING, OPENING, CONFIRMING, UP),
    "connected": (CONNECTING,),
    "lost": (CONNECTING, OPENING, CONFIRMING, UP),
    "stop": (WAITING, CONNECTING, OPENING, CONFIRMING, UP),
    "push_response": (UP,),
    "push_advisory": (UP,),
    "message": LINKED,
    "unreadable": LINKED,
}
PUSHES = ("push_response", "push_advisory")

# What is said when the session's own timer runs out, and when the host stops the session.
FAREWELL_OF_TIMER = {OPENING: (SEND_ALERT, SEND_GOING_OUT, DISCONNECT), CONFIRMING: (SEND_GOING_OUT, DISCONNECT),
                     UP: (SEND_GOING_OUT, DISCONNECT)}
FAREWELL_OF_STOP = {state: (SEND_GOING_OUT, DISCONNECT) for state in LINKED}

# What is acted on where; all else is out of place.
ACTING = {
    (OPENING, "SessionOpenResponse"): "hear_open_response",
    (CONFIRMING, "Ok"): "hear_ok",
    (CONFIRMING, "Advisory"): "hear_advisory",
    (UP, "Ok"): "hear_ok",
    (UP, "Advisory"): "hear_advisory",
    (UP, "Request"): "hear_request",
}

# Meanings in the reader's answer.
NAMES_A_NUMBER = 1
STATUS_OK, REDUNDANT_SESSION = 1, 2
UNREADABLE_MESSAGE = 1

STATUSES_THAT_OPEN = {NEW: (STATUS_OK,), OLD: (STATUS_OK, REDUNDANT_SESSION)}


class Site(NamedTuple):
    """What is chosen when a session is made. What a later request lets a site choose is one field more, with the value
    that holds where none is named."""

    interval: int
    conduct: str = NEW
    resends: int = RESENDS_WHERE_NONE_ARE_NAMED


SITE_OF_A_REFUSED_MAKING = Site(LEAST_INTERVAL, NEW, resends=0)


class Event(NamedTuple):
    code: int
    number: int = 0
    detail: int = 0


@dataclasses.dataclass
class Push:
    number: int
    handle: int
    most_sendings: int
    sent_at: List[int]  # the clock at each sending

    @property
    def due(self):
        """The tick at which the time to answer the last sending is over."""
        return self.sent_at[-1] + TICKS_TO_ANSWER

    @property
    def may_be_sent_again(self):
        return len(self.sent_at) < self.most_sendings


def value_of(answer, name):
    return answer.values[VALUES.index(name)]


def meaning_of(value):
    """What a value that is there means; one that is not means other, whatever else the answer says of it."""
    return value.meaning if value.there else 0


def number_named(value):
    return value.number if meaning_of(value) == NAMES_A_NUMBER else None


def refusal_of_making(site):
    if not LEAST_INTERVAL <= site.interval <= MOST_INTERVAL:
        return BAD_INTERVAL
    return BAD_RESENDS if site.resends > MOST_RESENDS else 0


class Session:
    def __init__(self, site):
        refused = self.refusal = refusal_of_making(site)
        self.site = SITE_OF_A_REFUSED_MAKING if refused else site
        self.state = STOPPED if refused else WAITING
        self.clock = 0  # the number of the last tick that was accepted
        self.timer_due = None if refused else 1  # the tick at which the session's own timer runs out; None: none runs
        self.heartbeat_due = None
        self.last = 0  # the number taken last
        self.session_ok = None  # the number of the open SessionOk
        self.pushes = []  # the open ones, in order of acceptance
        self.held = ()  # the numbers that were open when the call began
        self.events = []

    def call(self, what, *given, places=PLACES_NEEDED):
        refusal = self.refusal_of(what, given, places)
        if refusal:
            return refusal, []
        self.held = self.open_numbers()
        self.events = []
        getattr(self, what)(*given)
        return 0, self.events

    def refusal_of(self, what, given, places):
        if places < PLACES_NEEDED:
            return LIST_SHORT
        if self.state == STOPPED:
            return IS_STOPPED
        if self.state not in FITS[what] or what == "unreadable" and given[0] not in READER_REFUSALS:
            return DOES_NOT_FIT
        if what in PUSHES and len(self.pushes) == MOST_PUSHES:
            return TABLE_FULL
        return 0

    def open_numbers(self):
        numbers = {push.number for push in self.pushes}
        return numbers if self.session_ok is None else numbers | {self.session_ok}

    # What every call does its work with.

    def tell(self, code, number=0, detail=0):
        self.events.append(Event(code, number, detail))

    def send(self, code, handle=0):
        """Tells that a message is to be sent, under the next free number."""
        after_last = itertools.chain(range(self.last + 1, GREATEST_NUMBER + 1), itertools.count(0))
        self.last = next(number for number in after_last if number not in self.held)
        self.tell(code, self.last, handle)
        return self.last

    def send_session_ok(self):
        self.session_ok = self.send(SEND_SESSION_OK)
        self.timer_due = self.clock + TICKS_TO_ANSWER
        self.heartbeat_due = self.clock + self.site.interval

    def close_session_ok(self):
        self.session_ok = self.timer_due = None

    def leave(self, farewell, state=WAITING):
        """Ends the link or the attempt at one: what is said, and then all that was open is lost."""
        for code in farewell:
            (self.send if code in TAKE_A_NUMBER else self.tell)(code)
        for push in list(self.pushes):
            self.close(push, LOST)
        self.session_ok = self.heartbeat_due = None
        self.state = state
        self.timer_due = self.clock + TICKS_TO_WAIT if state == WAITING else None

    def close(self, push, code):
        self.pushes.remove(push)
        self.tell(code, push.number, push.handle)

    def send_again_or_close(self, push, code):
        if push.may_be_sent_again:
            self.send_again(push)
        else:
            self.close(push, code)

    def send_again(self, push):
        push.sent_at.append(self.clock)
        self.tell(SEND_RESPONSE_AGAIN, push.number, push.handle)

    # The calls.

    def tick(self):
        self.clock += 1
        if self.clock == self.timer_due:
            self.run_out()
            return
        for push in list(self.pushes):
            if self.clock == push.due:
                self.send_again_or_close(push, TIMED_OUT)
        if self.clock == self.heartbeat_due:
            self.send_session_ok()

    def run_out(self):
        if self.state == WAITING:
            self.tell(CONNECT)
            self.state, self.timer_due = CONNECTING, None
        else:
            self.leave(FAREWELL_OF_TIMER[self.state])

    def connected(self):
        self.send(SEND_OPEN_REQUEST)
        self.state, self.timer_due = OPENING, self.clock + TICKS_TO_ANSWER

    def lost(self):
        self.leave(())

    def stop(self):
        self.leave(FAREWELL_OF_STOP.get(self.state, ()), STOPPED)

    def push_response(self, handle):
        self.push(SEND_RESPONSE, handle, self.site.resends + 1)

    def push_advisory(self, handle):
        self.push(SEND_ADVISORY, handle, SENDINGS_OF_AN_ADVISORY)

    def push(self, code, handle, most_sendings):
        self.pushes.append(Push(self.send(code, handle), handle, most_sendings, [self.clock]))

    def unreadable(self, refusal):
        self.tell(UNREADABLE, 0, refusal)

    def message(self, answer):
        act = ACTING.get((self.state, kind_name(answer.kind)))
        if act:
            getattr(self, act)(answer)
        else:
            self.tell(OUT_OF_PLACE)

    # The kinds that are acted on.

    def hear_open_response(self, answer):
        if meaning_of(value_of(answer, "status")) in STATUSES_THAT_OPEN[self.site.conduct]:
            self.state = CONFIRMING
            self.send_session_ok()
        else:
            self.leave((DISCONNECT,))

    def hear_ok(self, answer):
        number = number_named(value_of(answer, "inResponseTo"))
        if number not in self.held:
            self.tell(UNMATCHED)
        elif number == self.session_ok:
            self.close_session_ok()
            if self.state == CONFIRMING:
                self.state = UP
                self.tell(IS_UP)
        else:
            self.close(self.push_numbered(number), ACKNOWLEDGED)

    def hear_advisory(self, answer):
        relation = value_of(answer, "inRelationTo")
        number = number_named(relation)
        if not relation.there:
            self.tell(ADVISORY_ARRIVED)
        elif number not in self.held:
            self.tell(UNMATCHED)
        elif number == self.session_ok:
            self.hear_objection_to_session_ok()
        else:
            self.hear_objection(self.push_numbered(number), meaning_of(value_of(answer, "type")))

    def hear_objection_to_session_ok(self):
        if self.state == CONFIRMING:
            self.leave((DISCONNECT,))
        else:
            self.close_session_ok()
            self.tell(ADVISORY_ARRIVED)

    def hear_objection(self, push, meaning):
        if meaning == UNREADABLE_MESSAGE:
            self.send_again_or_close(push, ADVISED)
        else:
            self.close(push, ADVISED)

    def hear_request(self, _):
        self.tell(REQUEST_ARRIVED)

    def push_numbered(self, number):
        return next(push for push in self.pushes if push.number == number)
