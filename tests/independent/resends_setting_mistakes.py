"""Mistakes about the figure that says how often to resend (document 02, M-105), to test the tests: sessions that are
made wrongly or do not keep the figure, and wrong replays, which do wrong what is a setting's or a line's and not the
session's.
"""

import session
from replay_script import SETTINGS, SITE_WHERE_ABSENT, Replay
from session import BAD_INTERVAL, BAD_RESENDS, MOST_RESENDS, RESENDS_WHERE_NONE_ARE_NAMED, WAITING, Session

# The making, and what is kept.


class WrongMaking(Session):
    """For those that refuse a site wrongly, or take it wrongly: a site and the refusal due are made another pair."""

    def __init__(self, site):
        due = session.refusal_of_making(site)
        site, refusal = self.taken(site, due)
        super().__init__(SITE_WHERE_ABSENT._replace(interval=0) if refusal else site)
        self.refusal = refusal

    def taken(self, site, due):
        raise NotImplementedError


class AllowsFour(WrongMaking):
    def taken(self, site, due):
        if due == BAD_RESENDS and site.resends == MOST_RESENDS + 1:
            return site._replace(resends=MOST_RESENDS), 0
        return site, due


class TakesTooManyForThree(WrongMaking):
    def taken(self, site, due):
        return (site._replace(resends=MOST_RESENDS), 0) if due == BAD_RESENDS else (site, due)


class RefusesThree(WrongMaking):
    def taken(self, site, due):
        return site, BAD_RESENDS if not due and site.resends == MOST_RESENDS else due


class RefusesZero(WrongMaking):
    def taken(self, site, due):
        return site, BAD_RESENDS if not due and site.resends == 0 else due


class Checks18Before4(WrongMaking):
    def taken(self, site, due):
        return site, BAD_RESENDS if site.resends > MOST_RESENDS else due


class Refuses18As4(WrongMaking):
    def taken(self, site, due):
        return site, BAD_INTERVAL if due else 0


class ForgetsResendsAtLinkLost(Session):
    def lost(self):
        super().lost()
        self.site = self.site._replace(resends=RESENDS_WHERE_NONE_ARE_NAMED)


class ForgetsResendsWhenWaitingEnds(Session):
    """The first Waiting is let off: there is nothing to forget that was ever used."""

    def run_out(self):
        if self.state == WAITING and self.clock > 1:
            self.site = self.site._replace(resends=RESENDS_WHERE_NONE_ARE_NAMED)
        super().run_out()


class UsesUpTheFigure(Session):
    """The resends are those of the whole session."""

    def send_again(self, push):
        super().send_again(push)
        self.site = self.site._replace(resends=max(0, self.site.resends - 1))


# The setting.


class NoneWhereAbsent(Replay):
    def __init__(self):
        super().__init__()
        self.site = self.site._replace(resends=0)


class MostWhereAbsent(Replay):
    def __init__(self):
        super().__init__()
        self.site = self.site._replace(resends=MOST_RESENDS)


class ResetsBySetting(Replay):
    """For those that let a setting put another back to what holds where it is absent."""

    setting, put_back = b"", ""

    def take_setting(self, line):
        taken = super().take_setting(line)
        if taken and line.startswith(self.setting):
            self.site = self.site._replace(**{self.put_back: getattr(SITE_WHERE_ABSENT, self.put_back)})
        return taken


class IntervalResetsResends(ResetsBySetting):
    setting, put_back = b"interval", "resends"


class ConductResetsResends(ResetsBySetting):
    setting, put_back = b"conduct", "resends"


class ResendsResetInterval(ResetsBySetting):
    setting, put_back = b"resends", "interval"


class ResendsResetConduct(ResetsBySetting):
    setting, put_back = b"resends", "conduct"


class FirstResendsCount(Replay):
    resends_are_given = False

    def take_setting(self, line):
        before = self.site
        taken = super().take_setting(line)
        if taken and line.startswith(b"resends"):
            self.site = before if self.resends_are_given else self.site
            self.resends_are_given = True
        return taken


class TakesResendsLoosely(Replay):
    """With leading zeros, and any blanks about the words."""

    def take_setting(self, line):
        words = line.split()
        if words[:1] == [b"resends"] and len(words) == 2:
            line = b"resends " + (words[1].lstrip(b"0") or b"0")
        return super().take_setting(line)


class RefusesTheLineAboveThree(Replay):
    """Takes a figure that is too great for a line that is no setting."""

    def take_setting(self, line):
        number = SETTINGS[b"resends"](line[8:]) if line.startswith(b"resends ") else None
        return (number is None or number <= MOST_RESENDS) and super().take_setting(line)


class TakesResendsInBits(Replay):
    bits = 32

    def take_setting(self, line):
        taken = super().take_setting(line)
        self.site = self.site._replace(resends=self.site.resends % 2**self.bits)
        return taken


class TakesResendsInAByte(TakesResendsInBits):
    bits = 8


class TakesResendsAmongTheCalls(Replay):
    def take_call(self, line):
        if line.startswith(b"resends ") and self.take_setting(line):
            self.session.site = self.session.site._replace(resends=self.site.resends)
            return True
        return super().take_call(line)


class LastForgetsResends(Replay):
    def take_numbered(self, word, number):
        taken = super().take_numbered(word, number)
        if taken and word == b"last":
            self.session.site = self.session.site._replace(resends=RESENDS_WHERE_NONE_ARE_NAMED)
        return taken


RESENDS_SETTING_MISTAKES = tuple(value for value in list(vars().values()) if isinstance(value, type) and issubclass(
    value, (Session, Replay)) and value not in (Session, Replay, WrongMaking, ResetsBySetting))
