"""Counts what comes up while scripts are replayed, so that a comparison can say what it has not tried."""

import collections
from typing import NamedTuple, Optional, Tuple

from reader_answer import KINDS, kind_name
from replay_examples import NO_CONDUCTS, NO_RESENDS
from replay_script import LONGEST_LINE, SETTINGS, Replay
from resends_sightings import CLOSINGS, OF_RESENDS, PUSH_NAMES, RESENDS_ARE_SAID, PushWatch, cause_of
from session import (ADVISORY_ARRIVED, BAD_INTERVAL, CONFIRMING, CONNECT, DISCONNECT, FITS, GREATEST_NUMBER, IS_UP,
                     LINKED, LOST, MOST_PUSHES, MOST_RESENDS, OLD, OPENING, READER_REFUSALS, REDUNDANT_SESSION,
                     SEND_SESSION_OK, STATES, TAKE_A_NUMBER, UNREADABLE, UP, meaning_of, value_of)

ENDED_BY = {"tick": "the timer", "lost": "lost", "stop": "stop"}
BAD_SETTINGS = {"conduct": NO_CONDUCTS, "resends": NO_RESENDS}

# How a session came by its conduct.
UNDER_OLD, UNDER_NEW_SAID, UNDER_NEW_BY_DEFAULT = UNDER = "under old", "under new said", "under new by default"
OPENED_BY_REDUNDANT = "opened by RedundantSession " + UNDER_OLD
OF_CONDUCT = (
    [OPENED_BY_REDUNDANT]
    + ["RedundantSession refused " + under for under in (UNDER_NEW_SAID, UNDER_NEW_BY_DEFAULT)]
    + ["RedundantSession out of place in %s %s" % (state, under) for state in (CONFIRMING, UP) for under in UNDER]
    + ["%s %s" % (what, under) for under in UNDER for what in (
        "RedundantSession in Opening again", "RedundantSession in Opening after a lost link")]
    + ["conduct given twice", "conduct given otherwise by a later line", "conduct behind interval",
       "interval behind conduct", "conduct among the calls", "bad conduct line",
       "bad conduct line that ends the settings", "refusal 4 with a conduct said"])

# Everything that has to come up.
TO_SEE = (
    ["state %s" % state for state in STATES] + ["event %d" % code for code in range(1, 20)]
    + ["refusal %d" % refusal for refusal in (4, 5, 6, 7, 18)]
    + ["%s in %s" % (what, state) for what in FITS for state in STATES]
    + ["%s heard in %s" % (kind, state) for kind in KINDS for state in LINKED]
    + ["refusal %d told" % refusal for refusal in READER_REFUSALS]
    + ["%s %s" % (name, closing) for name in PUSH_NAMES.values() for closing in CLOSINGS.values()]
    + ["ended by %s with pushes open" % how for how in ENDED_BY.values()]
    + ["32 pushes open", "33 events of a tick", "34 events of a call", "number 0 taken", "wrap of the numbers",
       "a push's number passed over", "the SessionOk's number passed over", "both passed over at once",
       "the number of a push closed in the same call passed over", "heartbeat in a tick in which pushes are due",
       "pushes due in a tick that ends the session", "heartbeat while pushes are open",
       "resent by time", "resent by UnreadableMessage", "acknowledged after a resend", "timed out after a resend by "
       "UnreadableMessage", "advised after a resend by UnreadableMessage", "UnreadableMessage after a resend by time",
       "UnreadableMessage for an Advisory push", "heartbeat answered by Ok", "heartbeat answered by Advisory",
       "opening refused", "Advisory for the SessionOk in Confirming", "connected again", "bad line", "line too long",
       "empty line", "interval given twice", "interval given otherwise by a later line", "interval among the calls",
       "last set", "last line without LF"]
    + OF_CONDUCT + OF_RESENDS)


class Before(NamedTuple):
    """What a call begins with."""

    state: str
    last: int
    session_ok: Optional[int]
    pushes: Tuple[int, ...]


def bad_settings(line):
    return ["bad %s line" % name for name, lines in BAD_SETTINGS.items() if line in lines]


def lies_between(number, last, taken):
    """Whether counting on from `last` meets the number before `taken`."""
    numbers = GREATEST_NUMBER + 1
    return 1 <= (number - last) % numbers < (taken - last) % numbers


class WatchedReplay(Replay):
    def __init__(self):
        super().__init__()
        self.seen = collections.Counter()
        self.said = []  # the settings, as they were given
        self.link_was_lost = self.met_redundant = False
        self.links = 0  # how often the session came up
        self.push_watch = PushWatch(self.see)

    def call(self, what, *given):
        session = self.session
        before = Before(session.state, session.last, session.session_ok, tuple(push.number for push in session.pushes))
        dues = [push.due for push in session.pushes]
        refusal, events = super().call(what, *given)
        self.seen["state " + session.state] += 1
        self.seen["%s in %s" % (what, before.state)] += 1
        self.link_was_lost |= what == "lost" and before.state in LINKED
        if refusal:
            self.seen["refusal %d" % refusal] += 1
        elif events or what != "tick":
            self.see_events(before, what, events, session.clock in dues)
            self.see_pushes(events, cause_of(what, given))
            if what == "message":
                self.see_message(before, given[0], events)
        return refusal, events

    def see(self, *things):
        self.seen.update(things)

    def see_events(self, before, what, events, pushes_due):
        codes = [event.code for event in events]
        self.see(*("event %d" % code for code in codes))
        self.see_numbers(before, events)
        if LOST in codes:
            self.see("ended by %s with pushes open" % ENDED_BY[what])
            if what == "tick" and pushes_due:
                self.see("pushes due in a tick that ends the session")
        if what == "tick" and SEND_SESSION_OK in codes:
            self.see("heartbeat in a tick in which pushes are due" if len(codes) > 1 else
                     "heartbeat while pushes are open" if before.pushes else "heartbeat with no push open")
        if len(codes) > MOST_PUSHES:
            self.see("33 events of a tick" if SEND_SESSION_OK in codes else "34 events of a call")
        if CONNECT in codes and self.session.clock > 1:
            self.see("connected again")
        if len(self.session.pushes) == MOST_PUSHES:
            self.see("32 pushes open")

    def see_numbers(self, before, events):
        last = before.last
        for number in (event.number for event in events if event.code in TAKE_A_NUMBER):
            pushes = [push for push in before.pushes if lies_between(push, last, number)]
            of_session_ok = before.session_ok is not None and lies_between(before.session_ok, last, number)
            still_open = {push.number for push in self.session.pushes}
            self.seen["a push's number passed over"] += bool(pushes)
            self.seen["the SessionOk's number passed over"] += of_session_ok
            self.seen["both passed over at once"] += of_session_ok and bool(pushes)
            self.seen["the number of a push closed in the same call passed over"] += not still_open.issuperset(pushes)
            self.seen["wrap of the numbers"] += number < last
            self.seen["number 0 taken"] += number == 0
            last = number

    def see_pushes(self, events, cause):
        for event in events:
            self.links += event.code == IS_UP
            self.push_watch.take(event, cause, self.session, self.links > 1)
            if event.code == UNREADABLE:
                self.see("refusal %d told" % event.detail)

    def see_message(self, before, answer, events):
        self.see("%s heard in %s" % (kind_name(answer.kind), before.state))
        codes = [event.code for event in events]
        if not codes:
            self.see("heartbeat answered by Ok")
        if codes == [ADVISORY_ARRIVED] and before.session_ok is not None and self.session.session_ok is None:
            self.see("heartbeat answered by Advisory")
        if codes == [DISCONNECT]:
            self.see({OPENING: "opening refused", CONFIRMING: "Advisory for the SessionOk in Confirming"}[before.state])
        if kind_name(answer.kind) == "SessionOpenResponse" and meaning_of(
                value_of(answer, "status")) == REDUNDANT_SESSION:
            self.see_redundant(before.state, codes)

    def see_redundant(self, state, codes):
        if self.session.site.conduct == OLD:
            under = UNDER_OLD
        else:
            under = UNDER_NEW_SAID if self.said_of(b"conduct") else UNDER_NEW_BY_DEFAULT
        if state != OPENING:
            self.see("RedundantSession out of place in %s %s" % (state, under))
            return
        what = {SEND_SESSION_OK: "opened by RedundantSession", DISCONNECT: "RedundantSession refused"}[codes[0]]
        self.see("%s %s" % (what, under))
        if self.met_redundant:
            self.see("RedundantSession in Opening again " + under)
        if self.link_was_lost:
            self.see("RedundantSession in Opening after a lost link " + under)
        self.met_redundant = True

    def said_of(self, word):
        return [line for line in self.said if line.startswith(word)]

    def take_call(self, line):
        taken = super().take_call(line)
        self.seen["last set"] += taken and line.startswith(b"last ")
        self.seen["bad line"] += not taken
        word, _, text = line.partition(b" ")
        if word in SETTINGS and SETTINGS[word](text) is not None:
            self.see("%s among the calls" % word.decode())
        self.see(*bad_settings(line))
        return taken

    def take_line(self, line):
        self.seen["empty line"] += not line
        self.seen["line too long"] += len(line) > LONGEST_LINE
        super().take_line(line)

    def take_setting(self, line):
        is_setting = super().take_setting(line)
        if is_setting:
            self.see_setting(line)
        self.see(*(kind + " that ends the settings" for kind in bad_settings(line)))
        return is_setting

    def see_setting(self, line):
        word = line.partition(b" ")[0]
        name, given = word.decode(), self.said_of(word)
        self.seen[name + " given twice"] += len(given) == 1
        self.seen[name + " given otherwise by a later line"] += bool(given) and given[-1] != line
        for other in SETTINGS:
            self.seen["%s behind %s" % (name, other.decode())] += other != word and bool(self.said_of(other))
        self.said.append(line)

    def end_settings(self):
        super().end_settings()
        self.see_resends()
        if self.session.refusal:
            self.see("refusal %d" % self.session.refusal)
            self.seen["refusal %d with a conduct said" % self.session.refusal] += bool(self.said_of(b"conduct"))

    def see_resends(self):
        said, resends = self.said_of(b"resends"), self.site.resends
        self.seen[RESENDS_ARE_SAID] += bool(said)
        self.seen["1 resend because it is said" if said else "1 resend because none are said"] += resends == 1
        self.seen["resends beyond 32 bits"] += resends > GREATEST_NUMBER
        self.seen["refusal 4 with resends above 3"] += self.session.refusal == BAD_INTERVAL and resends > MOST_RESENDS

    def run(self, script):
        self.seen["last line without LF"] += bool(script) and not script.endswith(b"\n")
        return super().run(script)
