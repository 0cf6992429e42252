"""Counts what comes up about the sendings of pushes, and about the figure that says how often to resend; a part of
`session_sightings`.
"""

import dataclasses
from typing import List

from reader_answer import kind_name
from session import (ACKNOWLEDGED, ADVISED, CONDUCTS, FIGURES, LOST, SEND_ADVISORY, SEND_RESPONSE, SEND_RESPONSE_AGAIN,
                     TICKS_TO_ANSWER, TIMED_OUT, UNREADABLE_MESSAGE, meaning_of, value_of)

CLOSINGS = {ACKNOWLEDGED: "acknowledged", ADVISED: "advised", TIMED_OUT: "timed out", LOST: "lost"}
RESPONSE, ADVISORY_PUSH = "Response", "Advisory push"
PUSH_NAMES = {SEND_RESPONSE: RESPONSE, SEND_ADVISORY: ADVISORY_PUSH}
TIME, UNREADABLE_ADVISORY = "time", "UnreadableMessage"

WITH_RESENDS, WITH_SEVERAL = FIGURES[1:], FIGURES[2:]

# A Response that came to the end of its sendings, and what a greater figure would have told otherwise.
USED_UP = "a Response used up"
RESENDS_ARE_SAID = "resends said"

OF_RESENDS = (
    ["a Response at resends %d under %s" % (resends, conduct) for resends in FIGURES for conduct in CONDUCTS]
    + ["Response timed out in silence at tick %d" % (TICKS_TO_ANSWER * (resends + 1)) for resends in FIGURES]
    + ["Response timed out after UnreadableMessage at resends %d" % resends for resends in WITH_RESENDS]
    + ["UnreadableMessage with no resend left at resends %d" % resends for resends in FIGURES]
    + ["%s after resends by time and by UnreadableMessage at resends %d" % (closing, resends)
       for closing in ("timed out", "advised") for resends in WITH_SEVERAL]
    + ["acknowledged after resend %d of %d" % (times, resends) for resends in FIGURES for times in range(resends + 1)]
    + ["lost after resend %d" % times for times in WITH_RESENDS]
    + ["another Advisory with a resend left at resends %d" % resends for resends in WITH_RESENDS]
    + ["Advisory push timed out at resends %d" % resends for resends in FIGURES]
    + ["UnreadableMessage for an Advisory push at resends %d" % resends for resends in FIGURES]
    + ["a Response used up after a reconnection at resends %d" % resends for resends in FIGURES]
    + ["resends given twice", "resends given otherwise by a later line", "resends behind interval",
       "resends behind conduct", "interval behind resends", "conduct behind resends", "resends among the calls",
       "bad resends line", "bad resends line that ends the settings", "resends beyond 32 bits", RESENDS_ARE_SAID,
       "1 resend because none are said", "1 resend because it is said", "refusal 18 with a conduct said",
       "refusal 4 with resends above 3"])


@dataclasses.dataclass
class Watched:
    """A push while it is open."""

    name: str
    accepted_at: int
    resent_by: List[str] = dataclasses.field(default_factory=list)  # the cause of each resend


def cause_of(what, given):
    """What makes a call send or close a push."""
    if what != "message":
        return TIME if what == "tick" else what
    answer = given[0]
    is_unreadable = meaning_of(value_of(answer, "type")) == UNREADABLE_MESSAGE
    return UNREADABLE_ADVISORY if is_unreadable else kind_name(answer.kind)


class PushWatch:
    """Follows the open pushes by what is told. Each thing seen is handed to `see`."""

    def __init__(self, see):
        self.see = see
        self.open = {}  # by number

    def take(self, event, cause, session, is_reconnected):
        if event.code in PUSH_NAMES:
            self.accept(event, session)
        elif event.code == SEND_RESPONSE_AGAIN:
            self.see_cause(self.open[event.number], cause)
            self.open[event.number].resent_by.append(cause)
            self.see("resent by " + cause)
        elif event.code in CLOSINGS:
            self.close(self.open.pop(event.number), event.code, cause, session, is_reconnected)

    def accept(self, event, session):
        site = session.site
        self.open[event.number] = Watched(PUSH_NAMES[event.code], session.clock)
        if event.code == SEND_RESPONSE:
            self.see("a Response at resends %d under %s" % (site.resends, site.conduct))

    def see_cause(self, push, cause):
        """UnreadableMessage where the resend before came by time."""
        if cause == UNREADABLE_ADVISORY and push.resent_by[-1:] == [TIME]:
            self.see("UnreadableMessage after a resend by time")

    def close(self, push, code, cause, session, is_reconnected):
        closing, resends = CLOSINGS[code], session.site.resends
        self.see("%s %s" % (push.name, closing))
        self.see_cause(push, cause)
        if push.resent_by:
            self.see("%s after a resend" % closing, "%s after a resend by %s" % (closing, push.resent_by[-1]))
        if push.name == ADVISORY_PUSH:
            self.close_advisory(code, cause, resends)
        elif code == TIMED_OUT or cause == UNREADABLE_ADVISORY:
            self.use_up(push, code, session)
            if is_reconnected:
                self.see("a Response used up after a reconnection at resends %d" % resends)
        else:
            self.close_before_the_end(push, code, resends)

    def close_advisory(self, code, cause, resends):
        if code == TIMED_OUT:
            self.see("Advisory push timed out at resends %d" % resends)
        if cause == UNREADABLE_ADVISORY:
            self.see("UnreadableMessage for an Advisory push",
                     "UnreadableMessage for an Advisory push at resends %d" % resends)

    def use_up(self, push, code, session):
        """A Response that has been sent as often as it may be, and is closed for that."""
        resends = session.site.resends
        self.see(USED_UP)
        if code == ADVISED:
            self.see("UnreadableMessage with no resend left at resends %d" % resends)
        elif UNREADABLE_ADVISORY in push.resent_by:
            self.see("Response timed out after UnreadableMessage at resends %d" % resends)
        else:
            self.see("Response timed out in silence at tick %d" % (session.clock - push.accepted_at))
        if len(set(push.resent_by)) > 1:
            self.see("%s after resends by time and by UnreadableMessage at resends %d" % (CLOSINGS[code], resends))

    def close_before_the_end(self, push, code, resends):
        times = len(push.resent_by)
        if code == ACKNOWLEDGED:
            self.see("acknowledged after resend %d of %d" % (times, resends))
        elif code == LOST:
            self.see("lost after resend %d" % times)
        elif times < resends:
            self.see("another Advisory with a resend left at resends %d" % resends)
