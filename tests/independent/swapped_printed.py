"""Two messages at once in what `replay` prints (document 02, M-113): random scripts in both orders, judged by the lines
alone, whatever the model says of them.

    python3 tests/independent/swapped_printed.py SEED CASE there

prints a script of that number, as tests/compare_replay.py runs it. It comes up several times, and each time two
messages come at once, and then other calls. In `there` each two stand in one order, in `back` in the other. In `alone`,
where two name one thing and the first closes it, the second gives way to a call that does nothing.
"""

import functools
import random
import sys
from typing import NamedTuple, Tuple

from checks import Difference, equal
from programs import first_differing_line
from reader_messages import OTHER_TYPES
from replay_script import Replay
from session import CONDUCTS, FIGURES, SEND_ADVISORY, SEND_RESPONSE, SEND_RESPONSE_AGAIN, SEND_SESSION_OK, UP
from session_lines import advisory, ok, script_of, unreadable
from swapped_pairs import (ADVISORY_PUSH, OK, OTHER, RESPONSE, SESSION_OK, UNREADABLE, Message, Open,
                           told_of_one_thing)
from swapped_sessions import JUDGED, SEED, different_pairs, mix_of, pairs_of_one
from swapped_writer import BusyWriter

ROUNDS = 6  # in a script
SCRIPTS_FOR_MISTAKES = 60
KINDS_IN_LINES = (OK, UNREADABLE, OTHER)  # the reader refuses an Advisory without a type
TYPES_IN_LINES = [uri for uri in OTHER_TYPES if "\n" not in uri]
DOES_NOTHING = "unreadable 9"

# Two messages of each mix; what they name has the kind, and the resends left, that a session is searched for.
WANTED = (*different_pairs(KINDS_IN_LINES), *pairs_of_one(KINDS_IN_LINES, 2))


class Pair(NamedTuple):
    """Two messages in a script."""

    place: int  # the line of the first, from 0
    call: int  # its call, from 1
    one: Message
    other: Message

    @property
    def name_one_thing(self):
        return self.one.thing.number == self.other.thing.number


class SwappedWriter(BusyWriter):
    def __init__(self, rng, resends, conduct):
        super().__init__(rng, resends, conduct)
        self.pairs = []

    def write_round(self, wanted):
        """A busy session, two messages that are as wanted, and other calls."""
        one, other = (message.thing for message in wanted)
        left = one.resends_left if one == other else self.rng.randint(0, self.session.site.resends)
        self.be_busy(SESSION_OK in (one.what, other.what) or self.chance(0.3), left)
        self.rng.choices((self.push_some, self.fill_at_once, lambda: None), (5, 1, 4))[0]()
        things = self.replay.things()
        pair = self.twice(*wanted) if one == other else self.one_each(*wanted)
        self.pairs.append(Pair(len(self.lines), self.replay.calls + 1, *pair))
        self.say(*pair)
        moves = self.keep_silence, self.push_too_many, self.set_last, lambda: self.answer_all(things)
        for move in self.rng.choices(moves, (5, 1, 1, 1), k=self.rng.randint(1, 3)):
            move()
        if self.session.state == UP:
            self.lose()

    def twice(self, one, other):
        """The messages, for an open thing with the resends left that are wanted."""
        thing = self.rng.choice([thing for thing in self.replay.things() if (thing.what, thing.resends_left) == (
            one.thing.what, one.thing.resends_left)])
        return one._replace(thing=thing), other._replace(thing=thing)

    def one_each(self, one, other):
        """The messages, for open things of the kinds that are wanted."""
        one = self.for_one_of(self.replay.things(), one)
        return one, self.for_one_of([thing for thing in self.replay.things() if thing != one.thing], other)

    def for_one_of(self, things, message):
        """More often than not an UnreadableMessage sends a Response again."""
        things = [thing for thing in things if thing.what == message.thing.what]
        again = [thing for thing in things if message.kind == UNREADABLE and thing.resends_left]
        return message._replace(thing=self.rng.choice(again if again and self.chance(0.7) else things))

    def say(self, *messages):
        for kind, thing in messages:
            if kind == OTHER:
                self.write(advisory(thing.number, self.rng.choice(TYPES_IN_LINES)))
            else:
                self.write({OK: ok, UNREADABLE: unreadable}[kind](thing.number))

    def keep_silence(self):
        """For some ticks or up to a heartbeat, with the SessionOk answered or not even that."""
        until = self.session.clock + self.rng.choice((1, 19, 20, 21, 40, 81))
        if self.session.state == UP and self.chance(0.3):
            until = self.session.heartbeat_due
        if self.chance(0.7):
            self.pass_ticks_until(until)
        else:
            self.tick(until - self.session.clock)

    def push_too_many(self):
        self.fill_at_once()
        self.push_some()

    def answer_all(self, things):
        """Everything that was open before the two messages."""
        self.say(*(Message(self.rng.choice(KINDS_IN_LINES), thing) for thing in things))


class Scripts(NamedTuple):
    there: bytes
    back: bytes
    alone: bytes
    pairs: Tuple[Pair, ...]
    resends: int

    @property
    def all(self):
        return self.there, self.back, self.alone


@functools.lru_cache(maxsize=SCRIPTS_FOR_MISTAKES)
def swapped_scripts(seed, number):
    """The scripts at a number, which decides the mixes; all else goes by chance."""
    wanted = [WANTED[(ROUNDS * number + turn) % len(WANTED)] for turn in range(ROUNDS)]
    resends = max(number % len(FIGURES), *(one.thing.resends_left for one, _ in wanted))
    writer = SwappedWriter(random.Random("printed %d/%d" % (seed, number)), resends, CONDUCTS[number // 4 % 2])
    for pair in wanted:
        writer.write_round(pair)
    if writer.chance(0.5):
        writer.write("stop")
    there, back, alone = (list(writer.lines) for _ in range(3))
    for pair in writer.pairs:
        back[pair.place:pair.place + 2] = there[pair.place + 1], there[pair.place]
        if pair.name_one_thing and pair.one.closes:
            alone[pair.place + 1] = DOES_NOTHING
    return Scripts(*map(script_of, (there, back, alone)), tuple(writer.pairs), resends)


# The judgement.


class Printed:
    """An output by the calls that its lines are of."""

    def __init__(self, output):
        self.lines = output.decode("latin-1").splitlines(True)
        self.by_call = {}
        for line in self.lines:
            call, _, told = line.rstrip("\n").partition(" ")
            self.by_call.setdefault(call, []).append(told)

    def of(self, call):
        return self.by_call.get(str(call), [])

    def without(self, calls):
        """All lines but those of these calls."""
        numbers = {str(call) for call in calls}
        return "".join(line for line in self.lines if line.partition(" ")[0] not in numbers).encode("latin-1")

    def thing_named(self, number, call, resends):
        """What is open under a number when the call comes, by the lines before."""
        thing = None
        for earlier in range(1, call):
            for told in self.of(earlier):
                code, *rest = told.split(" ")
                if code != "refused" and rest[0] == str(number):
                    thing = thing_after(thing, int(code), number, int(rest[1]), resends)
        if thing is None:
            raise Difference("no line before call %d takes the number %d" % (call, number))
        return thing


def thing_after(thing, code, number, handle, resends):
    if code == SEND_RESPONSE:
        return Open(RESPONSE, number, handle, resends)
    if code == SEND_ADVISORY:
        return Open(ADVISORY_PUSH, number, handle)
    if code == SEND_SESSION_OK:
        return Open(SESSION_OK, number)
    if code == SEND_RESPONSE_AGAIN:
        return thing._replace(resends_left=thing.resends_left - 1)
    return thing


def check_printed(scripts, outputs):
    """Raises where the outputs of the three scripts are not what the papers say of two messages."""
    there, back, alone = map(Printed, outputs)
    calls = {call for pair in scripts.pairs for call in (pair.call, pair.call + 1)}
    for other, name in ((back, "in the other order"), (alone, "after the first alone")):
        if other.without(calls) != there.without(calls):
            raise Difference("%s: %s" % (name, first_differing_line(other.without(calls), there.without(calls))))
    for pair in scripts.pairs:
        check_lines_of(pair, there, back, scripts.resends)


def check_lines_of(pair, there, back, resends):
    """The lines of two messages, which stand under the same calls in both outputs."""
    lines_there, lines_back = ([printed.of(pair.call), printed.of(pair.call + 1)] for printed in (there, back))
    if any(line.startswith("refused") for lines in lines_there + lines_back for line in lines):
        raise Difference("a message of call %d or the next is refused" % pair.call)
    if not pair.name_one_thing:
        equal(lines_back[::-1], lines_there, "the lines of call %d and the next" % pair.call)
        return
    thing = there.thing_named(pair.one.thing.number, pair.call, resends)
    one, other = (message._replace(thing=thing) for message in (pair.one, pair.other))
    for lines, first, second in ((lines_there, one, other), (lines_back, other, one)):
        due = [["%d %d %d" % event for event in events] for events in told_of_one_thing(first, second)]
        equal(lines, due, "the lines of call %d and the next, which name one thing" % pair.call)


# What has to come up.

TO_SEE_PRINTED = ([mix_of(*pair) for pair in WANTED] + ["resends %d" % resends for resends in FIGURES]
                  + ["told of a message: " + code for code in ("", "5", "9", "10", "15", "17")]
                  + ["told by other calls: " + code for code in ("5", "9", "10", "11", "12", "15", "17", "refused")])


def sightings_in_lines(scripts, output):
    """The mixes of the scripts, and what came of the messages and of the other calls in one of the outputs."""
    yield "resends %d" % scripts.resends
    yield from (mix_of(pair.one, pair.other) for pair in scripts.pairs)
    printed = Printed(output)
    calls = [call for pair in scripts.pairs for call in (pair.call, pair.call + 1)]
    yield from ("told of a message: " + told.partition(" ")[0] for call in calls for told in printed.of(call) or [""])
    for line in printed.without(calls).decode("latin-1").splitlines():
        yield "told by other calls: " + line.split(" ")[1]


# Mistakes.


def output_of(session_type, script):
    """What the script prints where the session is that one."""
    run = Replay()
    run.session_type = session_type
    return run.run(script)


def test_shown_by_lines(mistake):
    """The lines alone have to show it in one of the scripts; to stumble is wrong too."""
    for number in range(SCRIPTS_FOR_MISTAKES):
        scripts = swapped_scripts(SEED, number)
        try:
            check_printed(scripts, [output_of(mistake, script) for script in scripts.all])
        except (Difference, LookupError, ValueError, StopIteration):
            return
    raise Difference("no lines show it")


def printed_tests():
    """Names and calls of the tests of the judgement by lines."""
    for mistake in JUDGED:
        yield "lines show " + mistake.__name__, lambda mistake=mistake: test_shown_by_lines(mistake)


if __name__ == "__main__":
    sys.stdout.buffer.write(getattr(swapped_scripts(int(sys.argv[1]), int(sys.argv[2])), sys.argv[3]))
