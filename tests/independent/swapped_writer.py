"""Writes random sessions in Up with much open, for two messages at once (document 02, M-113).

A session is written as a script, so that a wrong one can be brought to the same place. Pushes of both kinds have
different ages, some were sent again, some are closed and leave gaps in the numbers, which may be about the wrap; the
SessionOk is open or not, and the last number may stand just before one that is held.
"""

import random

from session import CONDUCTS, FIGURES, GREATEST_NUMBER, Session
from session_lines import advisory, ok, unreadable
from session_writer import Writer
from swapped_pairs import ADVISORY_PUSH, RESPONSE, Accounting

INTERVALS = (21, 21, 22, 23, 40, 41, 60, 100, 257, 900)
LONGEST_WAIT = 15  # before a heartbeat and after it: with four ticks more a SessionOk sent between is still open
LEAST_OF_A_KIND = 2
FEW_PUSHES = 5  # so that all pairs of them can be tried


class BusyWriter(Writer):
    """Brings a session up, and fills it."""

    def __init__(self, rng, resends, conduct):
        super().__init__(rng)
        self.replay = Accounting()
        self.faith = 1
        self.write("interval %d" % rng.choice(INTERVALS), "conduct " + conduct, "resends %d" % resends)

    def is_over(self):
        """It comes up as often as it is asked to."""
        return False

    def be_busy(self, with_session_ok, resends_left):
        """Comes to a session with at least two pushes of each kind, one of them a Response with so many resends left;
        and with an open SessionOk or without."""
        self.come_up()
        self.come_near_the_wrap(0.4)
        before = min(self.rng.randint(0, LONGEST_WAIT), self.session.heartbeat_due - self.session.clock)
        self.pass_ticks_until(self.session.heartbeat_due - before)
        self.live(before)
        if not with_session_ok:
            self.answer_session_ok()
        self.come_near_the_wrap(0.3)
        self.live(self.rng.randint(0, LONGEST_WAIT))
        self.make_sure_of(resends_left)
        self.tick(self.rng.randint(1, 4))
        self.make_sure_of(resends_left)
        if self.chance(0.5):
            self.set_last_before(self.rng.choice(self.replay.things()).number)

    def come_near_the_wrap(self, likely):
        if self.chance(likely):
            self.write("last %d" % (GREATEST_NUMBER - self.rng.randint(0, 4)))

    def live(self, ticks):
        """Pushes come and go while so many ticks pass."""
        end = self.session.clock + ticks
        while True:
            self.rng.choice((self.push_one, self.push_one, self.push_one, self.close_one, self.resend_one))()
            left = end - self.session.clock
            if not left:
                return
            self.tick(min(left, self.rng.randint(1, 4)))

    def push_one(self):
        if len(self.replay.pushes) < FEW_PUSHES:
            self.push()

    def close_one(self):
        if self.replay.pushes:
            self.write(self.rng.choice((ok, advisory))(self.open_push()))

    def resend_one(self):
        if self.replay.pushes:
            self.write(unreadable(self.open_push()))

    def of_kind(self, what):
        return [push for push in self.replay.pushes.values() if push.what == what]

    def make_sure_of(self, resends_left):
        """Enough of each kind, and a Response with so many resends left."""
        for what, word in ((RESPONSE, "push"), (ADVISORY_PUSH, "advise")):
            for _ in range(LEAST_OF_A_KIND - len(self.of_kind(what))):
                self.write("%s %d" % (word, self.number()))
        if all(push.resends_left < resends_left for push in self.of_kind(RESPONSE)):
            self.write("push %d" % self.number())
        push = min((push for push in self.of_kind(RESPONSE) if push.resends_left >= resends_left),
                   key=lambda push: push.resends_left)
        self.write(*[unreadable(push.number)] * (push.resends_left - resends_left))


# By the number of a session: how often to resend, and how many resends are left to one of its Responses.
RESENDS_AND_LEFT = tuple((resends, left) for resends in FIGURES for left in range(resends + 1))


def busy_lines(seed, number, is_full=False):
    """The lines of the session at a number. Four rounds through the figures have the SessionOk open and not under each
    conduct. As many pushes as there can be are open where it is to be full."""
    turn, place = divmod(number, len(RESENDS_AND_LEFT))
    resends, left = RESENDS_AND_LEFT[place]
    writer = BusyWriter(random.Random("swapped %d/%d" % (seed, number)), resends, CONDUCTS[(place + turn) // 2 % 2])
    writer.be_busy((place + turn) % 2 == 0, left)
    if is_full:
        writer.fill_at_once()
    return writer.lines


def brought_to(lines, session_type=Session):
    """The run of a session, wrong or right, over the lines."""
    run = Accounting(session_type)
    for line in lines:
        run.take_line(line.encode("latin-1"))
    return run
