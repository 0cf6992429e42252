"""Mistakes about two messages at once (document 02, M-113), to test the tests: wrong sessions.

They make the order matter, or decide wrongly between two messages for one thing, and the judgement of `swapped_pairs`
has to find each, as have the scripts. Only the last one is wrong alike in either order: by its nature it is left to the
scripts. Mistakes of `session_mistakes` and `resends_mistakes` that matter here are not repeated: `swapped_sessions`
names them.
"""

import session
from session import (ACKNOWLEDGED, ADVISED, ADVISORY_ARRIVED, DOES_NOT_FIT, GREATEST_NUMBER, OUT_OF_PLACE, TABLE_FULL,
                     UNMATCHED, UNREADABLE_MESSAGE, UP, Session, number_named, value_of)

# The order of the pushes.


class ClosingMovesTheLastIntoTheGap(Session):
    def close(self, push, code):
        place = self.pushes.index(push)
        super().close(push, code)
        if place < len(self.pushes):
            self.pushes.insert(place, self.pushes.pop())


class NewPushGoesIntoTheGap(Session):
    """Closed room is used again at once, but with its place in the order."""

    gap = None

    def close(self, push, code):
        self.gap = self.pushes.index(push)
        super().close(push, code)

    def push(self, code, handle, most_sendings):
        super().push(code, handle, most_sendings)
        if self.gap is not None:
            self.pushes.insert(self.gap, self.pushes.pop())
            self.gap = None


class AnsweredOnlyInOrder(Session):
    """An Ok for a push that is not the oldest finds nothing."""

    def hear_ok(self, answer):
        number = number_named(value_of(answer, "inResponseTo"))
        if number in [push.number for push in self.pushes[1:]]:
            self.tell(UNMATCHED)
        else:
            super().hear_ok(answer)


class LooksWhereThePushWas(Session):
    """A push is sought at the place that it had before others were closed in this tick."""

    closed_at, places = None, ()

    def close(self, push, code):
        earlier = self.places if self.closed_at == self.clock else ()
        self.closed_at, self.places = self.clock, (*earlier, self.pushes.index(push))
        super().close(push, code)

    def push_numbered(self, number):
        place = self.pushes.index(super().push_numbered(number))
        moved = sum(closed <= place for closed in self.places) if self.closed_at == self.clock else 0
        return self.pushes[min(place + moved, len(self.pushes) - 1)]


class ClosingNeighboursLosesTheNext(Session):
    """One that stood right behind another closed in this tick takes the next one with it."""

    closed_at = None, None

    def close(self, push, code):
        place = self.pushes.index(push)
        super().close(push, code)
        if self.closed_at == (self.clock, place):
            del self.pushes[place:place + 1]
        self.closed_at = self.clock, place


# What is not named.


class OkMakesTheOthersOlder(Session):
    def close(self, push, code):
        super().close(push, code)
        if code == ACKNOWLEDGED:
            for left in self.pushes:
                left.sent_at[-1] -= 1


class ObjectionClosesLowerNumbersToo(Session):
    def hear_objection(self, push, meaning):
        super().hear_objection(push, meaning)
        for lower in [lower for lower in self.pushes if lower.number < push.number]:
            self.close(lower, ADVISED)


class OkClosesOlderOnesToo(Session):
    def close(self, push, code):
        older = self.pushes[:self.pushes.index(push)] if code == ACKNOWLEDGED else []
        super().close(push, code)
        for other in older:
            super().close(other, code)


class OkForAPushAnswersTheSessionOk(Session):
    def close(self, push, code):
        super().close(push, code)
        if code == ACKNOWLEDGED:
            self.close_session_ok()


class ObjectionToAPushClosesTheSessionOk(Session):
    def hear_objection(self, push, meaning):
        super().hear_objection(push, meaning)
        self.close_session_ok()


class ObjectionToTheSessionOkClosesAPush(Session):
    def hear_objection_to_session_ok(self):
        super().hear_objection_to_session_ok()
        for push in self.pushes[:1]:
            self.close(push, ADVISED)


class OkForTheSessionOkSparesTheOldestItsResend(Session):
    """A link that answers is taken to have heard the oldest push too: its time begins again."""

    def close_session_ok(self):
        super().close_session_ok()
        for push in self.pushes[:1]:
            push.sent_at[-1] = self.clock


class UnreadableMakesAllYoungAgain(Session):
    def hear_objection(self, push, meaning):
        super().hear_objection(push, meaning)
        if meaning == UNREADABLE_MESSAGE:
            for other in self.pushes:
                other.sent_at[-1] = self.clock


# Numbers.


class OkTakesANumber(Session):
    """The next free one: where the last number stands before those that are held, the order shows."""

    def close(self, push, code):
        super().close(push, code)
        if code == ACKNOWLEDGED:
            self.send(code)
            self.events.pop()


class OkUsesANumberUp(Session):
    """One more, whether it is free or not: it shows where an Advisory for the same push comes first."""

    def close(self, push, code):
        super().close(push, code)
        if code == ACKNOWLEDGED:
            self.last = (self.last + 1) % (GREATEST_NUMBER + 1)


class ClosingGivesTheNumberBack(Session):
    def close(self, push, code):
        super().close(push, code)
        if code in (ACKNOWLEDGED, ADVISED):
            self.last = (push.number - 1) % (GREATEST_NUMBER + 1)


class ClosingTheLastNumberGivesItBack(Session):
    """Only where nothing was taken after it."""

    def close(self, push, code):
        super().close(push, code)
        if code in (ACKNOWLEDGED, ADVISED) and push.number == self.last:
            self.last = (push.number - 1) % (GREATEST_NUMBER + 1)


# The second message of a tick.


class Remembering(Session):
    """For those that know what happened since the last tick."""

    def __init__(self, site):
        super().__init__(site)
        self.closed_now = []  # pushes
        self.heard_now = 0  # messages in Up
        self.resent_now = []  # pushes, by an UnreadableMessage

    def tick(self):
        self.closed_now, self.heard_now, self.resent_now = [], 0, []
        super().tick()

    def close(self, push, code):
        super().close(push, code)
        self.closed_now = self.closed_now + [push]

    def message(self, answer):
        self.heard_now += self.state == UP
        super().message(answer)

    def hear_objection(self, push, meaning):
        sent = len(push.sent_at)
        super().hear_objection(push, meaning)
        if len(push.sent_at) > sent:
            self.resent_now = self.resent_now + [push]


class SecondForAPushIsOutOfPlace(Remembering):
    def tell(self, code, number=0, detail=0):
        super().tell(OUT_OF_PLACE if code == UNMATCHED and self.closed_now else code, number, detail)


class SecondForAPushIsToldAgain(Remembering):
    """A push closed since the last tick is told once more."""

    def tell(self, code, number=0, detail=0):
        if code == UNMATCHED and self.closed_now:
            code, number, detail = ADVISED, self.closed_now[-1].number, self.closed_now[-1].handle
        super().tell(code, number, detail)


class SecondForAPushTakesANumber(Remembering):
    def tell(self, code, number=0, detail=0):
        super().tell(code, number, detail)
        if code == UNMATCHED and self.closed_now:
            self.last = (self.last + 1) % (GREATEST_NUMBER + 1)


class SecondForAPushIsNotTold(Remembering):
    def tell(self, code, number=0, detail=0):
        if code != UNMATCHED or not self.closed_now:
            super().tell(code, number, detail)


class SecondForTheSessionOkArrives(Session):
    """An Advisory for a SessionOk that was closed in this tick tells 17."""

    closed_at = None, None

    def close_session_ok(self):
        self.closed_at = self.session_ok, self.clock
        super().close_session_ok()

    def hear_advisory(self, answer):
        if self.closed_at == (number_named(value_of(answer, "inRelationTo")), self.clock):
            self.tell(ADVISORY_ARRIVED)
        else:
            super().hear_advisory(answer)


class FirstUnreadableDecides(Remembering):
    """What it sends again is not found by another message before the next tick."""

    def message(self, answer):
        self.held = set(self.held) - {push.number for push in self.resent_now}
        super().message(answer)


class OneMessageATick(Remembering):
    def refusal_of(self, what, given, places):
        refusal = super().refusal_of(what, given, places)
        return DOES_NOT_FIT if not refusal and what == "message" and self.heard_now else refusal


class OneResendATick(Remembering):
    def hear_objection(self, push, meaning):
        super().hear_objection(push, None if self.resent_now else meaning)


class SecondClosingForgetsTheHandle(Remembering):
    def close(self, push, code):
        if self.closed_now:
            push.handle = 0
        super().close(push, code)


class HeartbeatMovesUnlessAPushWasClosed(Remembering):
    """It is counted from the Ok for the SessionOk, but not if a push was closed since the last tick."""

    def close_session_ok(self):
        super().close_session_ok()
        if self.state == UP and not self.closed_now:
            self.heartbeat_due = self.clock + self.site.interval


class SessionOkStaysOpenAfterAClosing(Remembering):
    """Its timer runs on where a push was closed since the last tick."""

    def close_session_ok(self):
        due = self.timer_due
        super().close_session_ok()
        if self.closed_now:
            self.timer_due = due


class ClosingEndsTheTimeOfAResend(Remembering):
    """What was sent again since the last tick is taken to be as old as before, once something else is closed."""

    def close(self, push, code):
        super().close(push, code)
        for resent in self.resent_now:
            resent.sent_at[-1] = resent.sent_at[-2]


# What is told.


class ObjectionToTheSessionOkIsAcknowledged(Session):
    """Seen by the judgement where two messages name the one SessionOk."""

    def hear_objection_to_session_ok(self):
        number = self.session_ok
        super().hear_objection_to_session_ok()
        if self.state == UP:
            self.events[-1] = session.Event(ACKNOWLEDGED, number)


# Wrong alike in either order.


class RoomComesWithTheTick(Remembering):
    def refusal_of(self, what, given, places):
        refusal = super().refusal_of(what, given, places)
        is_full = len(self.pushes) + len(self.closed_now) >= session.MOST_PUSHES
        return TABLE_FULL if not refusal and what in session.PUSHES and is_full else refusal


SWAPPED_MISTAKES = tuple(value for value in list(vars().values()) if isinstance(value, type) and issubclass(
    value, Session) and value not in (Session, Remembering))
