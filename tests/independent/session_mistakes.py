"""Sessions that are wrong, to test the tests: each is a mistake that looks right, and some script must show it.

The first ones stand in document 01 ("Errors that look right"), the others turn round a rule or a ruling each. The ones
about the conduct are in `conduct_mistakes`, those about the number of resends in `resends_mistakes`, those about two
messages at once in `swapped_mistakes`.
"""

import session
from conduct_mistakes import CONDUCT_MISTAKES
from resends_mistakes import RESENDS_MISTAKES
from session import (ACKNOWLEDGED, ADVISED, CONFIRMING, DISCONNECT, LOST, OPENING, SEND_GOING_OUT, STOPPED, UNMATCHED,
                     UP, WAITING, Session, number_named, value_of)
from swapped_mistakes import SWAPPED_MISTAKES


class ClosesTheOldest(Session):
    def push_numbered(self, number):
        return self.pushes[0]


class TakesLeadingZeros(Session):
    """Taking `007` as 7 needs the text; any value that is there and names nothing will do instead."""

    def hear_ok(self, answer):
        if number_named(value_of(answer, "inResponseTo")) is None and self.pushes:
            self.close(self.pushes[0], ACKNOWLEDGED)
        else:
            super().hear_ok(answer)


class RestartsWhenTheTableMoves(Session):
    def close(self, push, code):
        place = self.pushes.index(push)
        super().close(push, code)
        for later in self.pushes[place:]:
            later.sent_at[-1] = self.clock


class SendsAdvisoriesAgain(Session):
    def push_advisory(self, handle):
        super().push_advisory(handle)
        self.pushes[-1].most_sendings = 2


class PushesHave21Ticks(Session):
    def push_response(self, handle):
        super().push_response(handle)
        self.pushes[-1].sent_at[-1] += 1


class ResendHas21Ticks(Session):
    def send_again(self, push):
        super().send_again(push)
        push.sent_at[-1] += 1


class ObjectionDoesNotRestart(Session):
    def hear_objection(self, push, meaning):
        sent_at = push.sent_at[-1]
        super().hear_objection(push, meaning)
        push.sent_at[-1] = sent_at


class ResendsWithoutEnd(Session):
    def hear_objection(self, push, meaning):
        if meaning == session.UNREADABLE_MESSAGE:
            self.send_again(push)
        else:
            self.close(push, ADVISED)


class ResendGoesLast(Session):
    def send_again(self, push):
        super().send_again(push)
        self.pushes.remove(push)
        self.pushes.append(push)


class OpeningHas21Ticks(Session):
    def connected(self):
        super().connected()
        self.timer_due += 1


class SessionOkHas21Ticks(Session):
    def send_session_ok(self):
        super().send_session_ok()
        self.timer_due += 1


class WaitsOneTickLess(Session):
    def leave(self, farewell, state=WAITING):
        super().leave(farewell, state)
        self.timer_due = self.timer_due and self.timer_due - 1


class LostBeforeGoingOut(Session):
    def leave(self, farewell, state=WAITING):
        super().leave(farewell, state)
        self.events.sort(key=lambda event: event.code != LOST)


class LosesInOrderOfNumbers(Session):
    def leave(self, farewell, state=WAITING):
        self.pushes.sort(key=lambda push: push.number)
        super().leave(farewell, state)


class SaysGoodbyeToALostLink(Session):
    def lost(self):
        self.leave((SEND_GOING_OUT, DISCONNECT) if self.state == UP else ())


class StopsConnectingLoudly(Session):
    def stop(self):
        self.leave((SEND_GOING_OUT, DISCONNECT) if self.state != WAITING else (), STOPPED)


class HeartbeatCountsFromItsOk(Session):
    def close_session_ok(self):
        super().close_session_ok()
        if self.state == UP:
            self.heartbeat_due = self.clock + self.site.interval


class FirstHeartbeatCountsFromUp(Session):
    def hear_ok(self, answer):
        before = self.state
        super().hear_ok(answer)
        if before == CONFIRMING and self.state == UP:
            self.heartbeat_due = self.clock + self.site.interval


class HeartbeatGoesFirst(Session):
    def tick(self):
        super().tick()
        self.events.sort(key=lambda event: event.code != session.SEND_SESSION_OK)


class PushesGoBeforeTheTimer(Session):
    def run_out(self):
        for push in list(self.pushes):
            if self.clock == push.due:
                self.close(push, session.TIMED_OUT)
        super().run_out()


class ObjectionEndsTheSession(Session):
    def hear_objection_to_session_ok(self):
        self.leave((DISCONNECT,))


class AdvisoryIsUnmatched(Session):
    def hear_advisory(self, answer):
        if value_of(answer, "inRelationTo").there:
            super().hear_advisory(answer)
        else:
            self.tell(UNMATCHED)


class PassesOverNothing(Session):
    def send(self, code, handle=0):
        self.held = ()
        return super().send(code, handle)


class PassesOverPushesOnly(Session):
    def send(self, code, handle=0):
        self.held = set(self.held) - {self.session_ok}
        return super().send(code, handle)


class PassesOverWhatIsStillOpen(Session):
    def send(self, code, handle=0):
        self.held = self.open_numbers()
        return super().send(code, handle)


class NeverTakesZero(Session):
    def send(self, code, handle=0):
        self.held = set(self.held) | {0}
        return super().send(code, handle)


class OpenRequestHoldsItsNumber(Session):
    def connected(self):
        super().connected()
        self.open_request = self.last

    def open_numbers(self):
        return super().open_numbers() | ({self.open_request} if self.state == OPENING else set())


class NumbersBeginAgain(Session):
    def connected(self):
        self.last = 0
        super().connected()


class Has33Places(Session):
    def refusal_of(self, what, given, places):
        refusal = super().refusal_of(what, given, places)
        return 0 if refusal == session.TABLE_FULL and len(self.pushes) == session.MOST_PUSHES else refusal


class RefusesAllTheSame(Session):
    def refusal_of(self, what, given, places):
        return super().refusal_of(what, given, places) and session.DOES_NOT_FIT


class TakesAnyRefusal(Session):
    def refusal_of(self, what, given, places):
        return super().refusal_of(what, (9,) if what == "unreadable" else given, places)


class TicksWhileConnecting(Session):
    def tick(self):
        super().tick()
        if self.state == session.CONNECTING:
            self.timer_due = self.timer_due or self.clock + session.TICKS_TO_WAIT

    def run_out(self):
        if self.state == session.CONNECTING:
            self.leave(())
        else:
            super().run_out()


MISTAKES = tuple(value for value in list(vars().values()) if isinstance(value, type) and issubclass(
    value, Session) and value is not Session) + CONDUCT_MISTAKES + RESENDS_MISTAKES + SWAPPED_MISTAKES
