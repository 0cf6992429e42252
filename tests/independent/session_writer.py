"""Writes a random script line by line. The model runs along, so that a line can fit what the session is at."""

from reader_cases import hurt_once, nearly_a_message, well_formed
from reader_values import STATUS_URI
from replay_examples import BAD_LINES, NO_SETTINGS
from replay_script import LONGEST_LINE, Replay
from session import (CONFIRMING, CONNECTING, GREATEST_NUMBER, LINKED, MOST_PUSHES, OPENING, STOPPED, TICKS_TO_ANSWER,
                     UP, WAITING)
from session_lines import (NEARLY_REDUNDANT, OPEN_REQUEST, REDUNDANT, REDUNDANT_OTHERWISE, REQUEST, RESPONSE, advisory,
                           ok, open_response, opened_with, session_ok, unreadable)

MOST_CALLS = 12000  # a script that has so many is ended
HANDLES = (0, 1, 17, 17, 4294967295)
SETTINGS_AMONG_CALLS = (b"interval 50", b"conduct old", b"conduct new", b"resends 0", b"resends 3") * 2


class Writer:
    def __init__(self, rng):
        self.rng = rng
        self.lines = []
        self.replay = Replay()
        self.faith = rng.choice((0.8, 0.97, 1))  # how likely the other side answers a SessionOk

    @property
    def session(self):
        if self.replay.session is None:
            self.replay.end_settings()
        return self.replay.session

    def write(self, *lines):
        for line in lines:
            self.lines.append(line)
            self.replay.take_line(line.encode("latin-1"))

    def is_over(self):
        return self.session.state == STOPPED or self.replay.calls > MOST_CALLS

    def chance(self, likely):
        return self.rng.random() < likely

    def number(self):
        return self.rng.choice(HANDLES) if self.chance(0.3) else self.rng.getrandbits(self.rng.randint(1, 32))

    # Time.

    def tick(self, many):
        if many < 1:
            return
        if many < 6 and self.chance(0.5):
            self.write(*["tick"] * many)
        else:
            self.write("tick %d" % many)

    def pass_ticks_until(self, due):
        """Lets time pass, and mostly answers the heartbeats that come on the way."""
        while self.session.state == UP and self.session.clock < due and not self.is_over():
            if self.session.session_ok is not None and self.chance(self.faith):
                self.answer_session_ok()
            self.tick(min(due, self.session.heartbeat_due) - self.session.clock)
        self.tick(due - self.session.clock)

    def dues(self):
        session = self.session
        dues = [session.timer_due, session.heartbeat_due]
        for push in session.pushes:
            resends_left = push.most_sendings - len(push.sent_at)
            dues += [push.due, push.due + TICKS_TO_ANSWER * resends_left]
        return [due for due in dues if due is not None]

    def wait_a_little(self):
        self.tick(self.rng.choice((1, 1, 2, 5, 19, 20)))

    def wait_for_something(self):
        """Up to a tick at which something is due, the one before or the one after."""
        dues = self.dues()
        if dues:
            self.pass_ticks_until(self.rng.choice(dues) + self.rng.choice((-1, 0, 0, 0, 1)))
        else:
            self.wait_a_little()

    # Coming up.

    def advance(self):
        """A step towards Up."""
        state = self.session.state
        if state == WAITING:
            self.tick(self.session.timer_due - self.session.clock)
        elif state == CONNECTING:
            self.tick(self.rng.choice((0, 0, 0, 1, 20, 299, 300, 301)))
            self.write("connected")
        elif state == OPENING:
            self.tick(self.rng.choice((0, 0, 1, 18, 19)))
            self.write(self.redundant() if self.chance(0.2) else open_response())
        elif state == CONFIRMING:
            self.tick(self.rng.choice((0, 0, 1, 18, 19)))
            if self.chance(0.05):
                self.write(self.redundant())
            self.answer_session_ok()

    def redundant(self):
        return self.rng.choice(tuple(REDUNDANT_OTHERWISE.values())) if self.chance(0.2) else REDUNDANT

    def come_up(self):
        while self.session.state != UP and not self.is_over():
            if self.chance(0.06):
                self.stumble()
            if self.session.state in LINKED and self.chance(0.4):
                self.rng.choice((self.say_anything, self.say_anything, self.name_nothing, self.hand_in))()
            self.advance()

    def stumble(self):
        """What keeps a session from coming up, and now and then a last number that shows which ones are held."""
        state, number = self.session.state, self.session.session_ok
        if state == OPENING and self.chance(0.5):
            self.write(opened_with(self.rng.choice(("", STATUS_URI + "VersionMismatch", STATUS_URI + "ok")
                                                   + NEARLY_REDUNDANT)))
        elif state == CONFIRMING and self.chance(0.5):
            self.write(self.rng.choice((advisory, unreadable))(number))
        elif state in (OPENING, CONFIRMING) and self.chance(0.7):
            if self.chance(0.5):
                self.set_last_before(number)
            self.tick(TICKS_TO_ANSWER if self.chance(0.7) else 0)
        elif state != WAITING:
            self.write("lost")

    # Pushes and the answers to them.

    def push(self):
        self.write("%s %d" % (self.rng.choice(("push", "push", "advise")), self.number()))

    def push_some(self):
        for _ in range(self.rng.choice((1, 1, 2, 3, 5))):
            self.push()

    def fill_table(self):
        while self.session.state == UP and len(self.session.pushes) < MOST_PUSHES:
            self.push()
            if self.chance(0.05):
                self.tick(1)
        self.push_some()

    def open_push(self):
        """The number of an open push; a number that is likely none where none is open."""
        pushes = self.session.pushes
        return self.rng.choice(pushes).number if pushes else self.session.last

    def answer_push(self):
        self.write(ok(self.open_push()))

    def object_to_push(self):
        self.write(advisory(self.open_push()))

    def object_unreadable(self):
        number = self.open_push()
        self.write(unreadable(number))
        if self.chance(0.3):
            self.tick(self.rng.choice((0, 1, 19)))
            self.write(self.rng.choice((unreadable, unreadable, ok, advisory))(number))

    def wear_out(self):
        """Lets the sendings of a new push go by, by time and by UnreadableMessage, up to its end or an answer."""
        self.write("%s %d" % (self.rng.choice(("push",) * 5 + ("advise",)), self.number()))
        numbers = [push.number for push in self.session.pushes][-1:]
        by_time, answered = self.rng.choice((0, 0.5, 0.5, 1)), self.rng.choice((0, 0, 0.3, 0.3))
        while numbers and not self.is_over():
            push = next((push for push in self.session.pushes if push.number == numbers[0]), None)
            if push is None:
                return
            if self.chance(0.03):
                self.lose()
            elif self.chance(answered):
                self.write(self.rng.choice((ok, ok, advisory))(push.number))
            elif self.chance(by_time):
                self.pass_ticks_until(push.due)
            else:
                self.pass_ticks_until(push.due - self.rng.choice((1, 1, 5, 15, 20)))
                self.write(unreadable(push.number))

    def answer_session_ok(self):
        if self.session.session_ok is not None:
            objects = self.session.state == UP and self.chance(0.2)
            self.write((self.rng.choice((advisory, unreadable)) if objects else ok)(self.session.session_ok))

    # The numbers.

    def set_last_before(self, number):
        number = self.session.last if number is None else number
        self.write("last %d" % ((number - self.rng.choice((1, 1, 1, 2))) % (GREATEST_NUMBER + 1)))

    def set_last(self):
        open_numbers = [push.number for push in self.session.pushes]
        if self.session.session_ok is not None:
            open_numbers += [self.session.session_ok] * (1 + len(open_numbers))
        if open_numbers and self.chance(0.7):
            self.set_last_before(self.rng.choice(open_numbers))
        else:
            self.write("last %d" % self.rng.choice((0, GREATEST_NUMBER, GREATEST_NUMBER - 1, GREATEST_NUMBER - 3,
                                                    self.number())))

    def pass_over(self):
        """Sets the last number before an open one and takes the next: with a push, a heartbeat or an ending."""
        if not self.session.pushes:
            self.push_some()
        if self.chance(0.5):
            self.await_heartbeat()
        self.set_last()
        self.rng.choice((self.push_some, self.push_some, self.wait_for_something, self.end))()

    def pass_over_both(self):
        """A push and the SessionOk with neighbouring numbers, one after the other."""
        self.await_heartbeat()
        first = self.session.last
        self.push_some()
        self.set_last_before(first)
        self.rng.choice((self.push_some, self.end))()

    # The heartbeat.

    def await_heartbeat(self):
        """Up to the tick that sends one."""
        if self.session.state == UP and self.session.session_ok is None:
            self.tick(self.session.heartbeat_due - self.session.clock)

    def meet_heartbeat(self):
        """Pushes that are due in the tick of a heartbeat, sometimes as many as there can be."""
        if self.session.state != UP:
            return
        sendings = self.rng.randint(1, self.session.site.resends + 1)
        self.pass_ticks_until(self.session.heartbeat_due - TICKS_TO_ANSWER * sendings)
        if self.session.session_ok is not None:
            self.answer_session_ok()
        (self.fill_at_once if self.chance(0.2) else self.push_some)()
        if self.chance(0.4):
            self.set_last()
        self.pass_ticks_until(self.session.heartbeat_due or 0)

    def fill_at_once(self):
        while self.session.state == UP and len(self.session.pushes) < MOST_PUSHES:
            self.push()

    # Endings.

    def end(self):
        self.rng.choice((self.end_by_timer, self.end_by_timer, self.lose))()

    def lose(self):
        self.write("lost")

    def end_by_timer(self):
        """No answer to a SessionOk; pushes are open, and may be due in the same tick."""
        self.await_heartbeat()
        if self.session.state != UP:
            return
        wait = self.rng.choice((0, 0, 3, 19))
        self.tick(wait)
        (self.fill_at_once if self.chance(0.2) else self.push_some)()
        self.tick(TICKS_TO_ANSWER - wait)

    def leave_link(self):
        """Leaves Confirming and Up, and nothing else, by any way that leads to Waiting."""
        if self.session.state == CONFIRMING and self.chance(0.3):
            self.write(self.rng.choice((advisory, unreadable))(self.session.session_ok))
        elif self.session.state == CONFIRMING and self.chance(0.3):
            self.tick(TICKS_TO_ANSWER)
        elif self.session.state == UP and self.chance(0.3):
            self.end_by_timer()
        elif self.session.state in (CONFIRMING, UP):
            self.lose()

    def open_again(self):
        """Rounds that come to Opening and meet RedundantSession there, some with a last number set between. It is said
        before and after too, where it does nothing."""
        for _ in range(self.rng.choice((1, 2, 3))):
            if self.chance(0.2):
                self.write(self.redundant())
            self.leave_link()
            while self.session.state != OPENING and not self.is_over():
                self.advance()
            if self.chance(0.3):
                self.set_last()
            self.tick(self.rng.choice((0, 0, 1, 18, 19)))
            self.write(self.redundant())
            if self.chance(0.3):
                self.write(self.redundant())

    # What does not fit.

    def name_nothing(self):
        near = self.session.last if self.chance(0.5) else self.open_push()
        texts = ("0%d" % near, " %d" % near, near + 1, near + 2**32, "", near - 1, "x", "+%d" % near, "%d." % near)
        self.write(self.rng.choice((ok, advisory, unreadable))(self.rng.choice(texts)))

    def say_anything(self):
        """A message of any kind, plain, or as the reader's own cases have it."""
        if self.chance(0.6):
            number = self.open_push()
            relation = self.rng.choice((None, number))
            self.write(self.rng.choice((OPEN_REQUEST, open_response(), REDUNDANT, session_ok(number), ok(number),
                                        advisory(relation), unreadable(relation), REQUEST, REQUEST, RESPONSE)))
            return
        message = self.rng.choice((well_formed, nearly_a_message, hurt_once))(self.rng)
        self.write("message " + message.replace(b"\n", b" ").decode("latin-1"))

    def hand_in(self):
        refusal = self.rng.randint(8, 14) if self.chance(0.7) else self.rng.choice((0, 7, 15, 27, 264, self.number()))
        self.write("unreadable %d" % refusal)

    def call_anything(self):
        self.rng.choice((lambda: self.write("connected"), self.push, self.push, self.hand_in, self.say_anything,
                         self.wait_a_little, lambda: self.write("tick"), self.lose))()

    def write_badly(self):
        line = self.rng.choice(BAD_LINES + NO_SETTINGS + SETTINGS_AMONG_CALLS + (b"", b""))
        if self.chance(0.12):
            line = ok(self.open_push()).encode().ljust(LONGEST_LINE + self.rng.choice((0, 1, 20)))
        self.write(line.decode("latin-1"))
