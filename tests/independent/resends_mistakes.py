"""Mistakes about the number of resends (document 02, M-105), to test the tests: wrong sessions. Those about the making
of a session and about the setting are in `resends_setting_mistakes`.
"""

import session
from resends_setting_mistakes import RESENDS_SETTING_MISTAKES
from session import ADVISED, OLD, TICKS_TO_ANSWER, TIMED_OUT, UNREADABLE_MESSAGE, Session

# How often to send.


class WrongLimit(Session):
    """For those that accept a push with a wrong number of sendings."""

    def limit_of(self, code, most_sendings):
        raise NotImplementedError

    def push(self, code, handle, most_sendings):
        super().push(code, handle, self.limit_of(code, most_sendings))


class SendsOnceTooOften(WrongLimit):
    def limit_of(self, code, most_sendings):
        return most_sendings + (code == session.SEND_RESPONSE)


class NeverSendsAgain(WrongLimit):
    def limit_of(self, code, most_sendings):
        return 1


class AlwaysSendsTwice(WrongLimit):
    """The limit of before, whatever the figure is."""

    def limit_of(self, code, most_sendings):
        return 2 if code == session.SEND_RESPONSE else most_sendings


class SendsTwiceAtMost(WrongLimit):
    def limit_of(self, code, most_sendings):
        return min(most_sendings, 2)


class SendsTwiceAtLeast(WrongLimit):
    def limit_of(self, code, most_sendings):
        return max(most_sendings, 2) if code == session.SEND_RESPONSE else most_sendings


class SendsThreeTimesAtMost(WrongLimit):
    def limit_of(self, code, most_sendings):
        return min(most_sendings, 3)


class AdvisoriesCountLikeResponses(WrongLimit):
    def limit_of(self, code, most_sendings):
        return self.site.resends + 1


class OldConductFixesTheResends(WrongLimit):
    def limit_of(self, code, most_sendings):
        return min(most_sendings, 2) if self.site.conduct == OLD else most_sendings


# Counting the sendings.


class NeverCounts(Session):
    def send_again(self, push):
        super().send_again(push)
        del push.sent_at[:-1]


class CountsUpToTwo(Session):
    """Sent once, and sent more often: what was enough before."""

    def send_again(self, push):
        super().send_again(push)
        del push.sent_at[1:-1]


class ResendByTimeIsNotCounted(Session):
    def tick(self):
        super().tick()
        for push in self.pushes:
            if push.sent_at[-1] == self.clock and len(push.sent_at) > 1:
                del push.sent_at[-2]


class ResendByUnreadableIsNotCounted(Session):
    def hear_objection(self, push, meaning):
        sent = len(push.sent_at)
        super().hear_objection(push, meaning)
        if len(push.sent_at) > sent:
            del push.sent_at[-2]


class ResendByUnreadableUsesUpAll(Session):
    def hear_objection(self, push, meaning):
        sent = len(push.sent_at)
        super().hear_objection(push, meaning)
        if len(push.sent_at) > sent:
            push.most_sendings = len(push.sent_at)


class CountsAllPushesTogether(Session):
    def send_again(self, push):
        super().send_again(push)
        for other in self.pushes:
            if other is not push:
                other.most_sendings -= other.may_be_sent_again


class CountsAsTheFirstPush(Session):
    """The first open push is followed, and the later ones are taken to be as far as it is."""

    def send_again_or_close(self, push, code):
        first = self.pushes[0]
        if push.most_sendings == 1 or push.may_be_sent_again == first.may_be_sent_again:
            super().send_again_or_close(push, code)
        elif first.may_be_sent_again:
            self.send_again(push)
        else:
            self.close(push, code)


# When to send, and what.


class LaterResendKeepsTheAge(Session):
    """By UnreadableMessage, from the second resend on."""

    def hear_objection(self, push, meaning):
        sent_at = list(push.sent_at)
        super().hear_objection(push, meaning)
        if len(push.sent_at) > max(2, len(sent_at)):
            push.sent_at[-1] = sent_at[-1]


class LaterResendComesAtTick19(Session):
    def send_again(self, push):
        super().send_again(push)
        if push.may_be_sent_again:
            push.sent_at[-1] -= 1


class LaterResendComesAtTick21(Session):
    def send_again(self, push):
        super().send_again(push)
        if len(push.sent_at) > 2:
            push.sent_at[-1] += 1


class UnreadableDoesNotBringTheEndNearer(Session):
    """The last sending is waited for up to the tick at which silence would have closed the push."""

    def send_again(self, push):
        super().send_again(push)
        if not push.may_be_sent_again:
            push.sent_at[-1] = push.sent_at[0] + TICKS_TO_ANSWER * (push.most_sendings - 1)


class ResendTakesANumber(Session):
    def send_again(self, push):
        super().send_again(push)
        self.last = (self.last + 1) % (session.GREATEST_NUMBER + 1)


class LaterResendHasANewNumber(Session):
    def send_again(self, push):
        if len(push.sent_at) > 1:
            push.number = self.last = (self.last + 1) % (session.GREATEST_NUMBER + 1)
        super().send_again(push)


class LaterResendGoesLast(Session):
    def send_again(self, push):
        super().send_again(push)
        if len(push.sent_at) > 2:
            self.pushes.remove(push)
            self.pushes.append(push)


class LaterResendForgetsTheHandle(Session):
    def send_again(self, push):
        if len(push.sent_at) > 1:
            push.handle = 0
        super().send_again(push)


class OpeningWaitsForResends(Session):
    """Nothing is sent again there, whatever the figure is."""

    def connected(self):
        super().connected()
        self.timer_due += TICKS_TO_ANSWER * max(0, self.site.resends - 1)


class SessionOkWaitsForResends(Session):
    def send_session_ok(self):
        super().send_session_ok()
        self.timer_due += TICKS_TO_ANSWER * max(0, self.site.resends - 1)


# What is heard.


class UnreadableSendsThoughNoneIsLeft(Session):
    def hear_objection(self, push, meaning):
        if meaning == UNREADABLE_MESSAGE and len(push.sent_at) > 1:
            self.send_again(push)
        else:
            super().hear_objection(push, meaning)


class UnreadableSendsAtResends0(Session):
    def hear_objection(self, push, meaning):
        if meaning == UNREADABLE_MESSAGE and self.site.resends == 0:
            self.send_again(push)
        else:
            super().hear_objection(push, meaning)


class UnreadableSendsAdvisoriesAgain(Session):
    def hear_objection(self, push, meaning):
        if meaning == UNREADABLE_MESSAGE and push.most_sendings == 1 and self.site.resends > 1:
            self.send_again(push)
        else:
            super().hear_objection(push, meaning)


class UnreadableSendsOnceOnly(Session):
    """The later resends are left to time."""

    def hear_objection(self, push, meaning):
        if meaning == UNREADABLE_MESSAGE and len(push.sent_at) > 1:
            self.close(push, ADVISED)
        else:
            super().hear_objection(push, meaning)


class UnreadableWithNoneLeftIsTimedOut(Session):
    def hear_objection(self, push, meaning):
        if meaning == UNREADABLE_MESSAGE and not push.may_be_sent_again and self.site.resends != 1:
            self.close(push, TIMED_OUT)
        else:
            super().hear_objection(push, meaning)


class AnyAdvisorySendsAgain(Session):
    def hear_objection(self, push, meaning):
        super().hear_objection(push, UNREADABLE_MESSAGE if len(push.sent_at) > 1 else meaning)


RESENDS_MISTAKES = tuple(value for value in list(vars().values()) if isinstance(value, type) and issubclass(
    value, Session) and value not in (Session, WrongLimit)) + RESENDS_SETTING_MISTAKES
