"""Mistakes about the conduct (document 02, M-110), to test the tests: wrong sessions, and wrong replays, which do wrong
what is a setting's or a line's and not the session's.
"""

from replay_script import SETTINGS, SITE_WHERE_ABSENT, Replay
from session import (CONFIRMING, DISCONNECT, LINKED, NEW, OLD, OUT_OF_PLACE, REDUNDANT_SESSION, SEND_GOING_OUT,
                     STATUS_OK, UP, WAITING, Session, meaning_of, value_of)


def status_of(answer):
    return meaning_of(value_of(answer, "status"))


class WrongInOpening(Session):
    """For those that do wrong with some status in Opening."""

    def open(self):
        self.state = CONFIRMING
        self.send_session_ok()

    def refuse(self):
        self.leave((DISCONNECT,))

    def hears_redundant(self, conduct, answer):
        return self.site.conduct == conduct and status_of(answer) == REDUNDANT_SESSION


class ConductsSwapped(WrongInOpening):
    def hear_open_response(self, answer):
        self.site = self.site._replace(conduct={NEW: OLD, OLD: NEW}[self.site.conduct])
        super().hear_open_response(answer)
        self.site = self.site._replace(conduct={NEW: OLD, OLD: NEW}[self.site.conduct])


class NewOpensAsOldDoes(WrongInOpening):
    def hear_open_response(self, answer):
        if self.hears_redundant(NEW, answer):
            self.open()
        else:
            super().hear_open_response(answer)


class OldRefusesAsNewDoes(WrongInOpening):
    def hear_open_response(self, answer):
        if self.hears_redundant(OLD, answer):
            self.refuse()
        else:
            super().hear_open_response(answer)


class NewWaitsOneTick(WrongInOpening):
    def hear_open_response(self, answer):
        super().hear_open_response(answer)
        if self.hears_redundant(NEW, answer):
            self.timer_due = self.clock + 1


class NewSaysGoingOut(WrongInOpening):
    def hear_open_response(self, answer):
        if self.hears_redundant(NEW, answer):
            self.leave((SEND_GOING_OUT, DISCONNECT))
        else:
            super().hear_open_response(answer)


class NewTakesItForOutOfPlace(WrongInOpening):
    def hear_open_response(self, answer):
        if self.hears_redundant(NEW, answer):
            self.tell(OUT_OF_PLACE)
        else:
            super().hear_open_response(answer)


class NewRefusesOkToo(WrongInOpening):
    def hear_open_response(self, answer):
        if self.site.conduct == NEW and status_of(answer) == STATUS_OK:
            self.refuse()
        else:
            super().hear_open_response(answer)


class OldOpensWithAnyStatus(WrongInOpening):
    def hear_open_response(self, answer):
        if self.site.conduct == OLD:
            self.open()
        else:
            super().hear_open_response(answer)


class NewRefusesInEveryLinkedState(WrongInOpening):
    def message(self, answer):
        if self.state in LINKED and self.hears_redundant(NEW, answer):
            self.refuse()
        else:
            super().message(answer)


class OldRedundantIsUpAtOnce(WrongInOpening):
    def hear_open_response(self, answer):
        super().hear_open_response(answer)
        if self.hears_redundant(OLD, answer):
            self.state = UP


class ForgetsConductAtLinkLost(Session):
    def lost(self):
        super().lost()
        self.site = self.site._replace(conduct=NEW)


class ForgetsConductWhenWaitingEnds(Session):
    """The first Waiting is let off: there is nothing to forget that was ever used."""

    def run_out(self):
        if self.state == WAITING and self.clock > 1:
            self.site = self.site._replace(conduct=NEW)
        super().run_out()


class NewForTheFirstConnectionOnly(Session):
    connections = 0

    def connected(self):
        super().connected()
        self.connections += 1
        if self.connections > 1:
            self.site = self.site._replace(conduct=OLD)


class OldWhereAbsent(Replay):
    def __init__(self):
        super().__init__()
        self.site = self.site._replace(conduct=OLD)


class IntervalResetsConduct(Replay):
    def take_setting(self, line):
        taken = super().take_setting(line)
        if taken and line.startswith(b"interval"):
            self.site = SITE_WHERE_ABSENT._replace(interval=self.site.interval)
        return taken


class ConductResetsInterval(Replay):
    def take_setting(self, line):
        taken = super().take_setting(line)
        if taken and line.startswith(b"conduct"):
            self.site = SITE_WHERE_ABSENT._replace(conduct=self.site.conduct)
        return taken


class FirstConductCounts(Replay):
    conduct_is_given = False

    def take_setting(self, line):
        before = self.site
        taken = super().take_setting(line)
        if taken and line.startswith(b"conduct"):
            self.site = before if self.conduct_is_given else self.site
            self.conduct_is_given = True
        return taken


class TakesConductLoosely(Replay):
    """In any case, with any blanks about the words."""

    def take_setting(self, line):
        words = line.lower().split()
        return super().take_setting(b" ".join(words) if words[:1] == [b"conduct"] else line)


class TakesAnyConduct(Replay):
    """What is not `old` is new."""

    def take_setting(self, line):
        loose = line.startswith(b"conduct ") and SETTINGS[b"conduct"](line[8:]) is None
        return super().take_setting(b"conduct new" if loose else line)


class TakesConductAmongTheCalls(Replay):
    def take_call(self, line):
        if line.startswith(b"conduct ") and self.take_setting(line):
            self.session.site = self.session.site._replace(conduct=self.site.conduct)
            return True
        return super().take_call(line)


class LastForgetsConduct(Replay):
    def take_numbered(self, word, number):
        taken = super().take_numbered(word, number)
        if taken and word == b"last":
            self.session.site = self.session.site._replace(conduct=NEW)
        return taken


CONDUCT_MISTAKES = tuple(value for value in list(vars().values()) if isinstance(value, type) and issubclass(
    value, (Session, Replay)) and value not in (Session, Replay, WrongInOpening))
