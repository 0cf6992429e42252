"""Two messages at once in random sessions (document 02, M-113): all pairs that a session has, in both orders, and later
lists of calls. Counts what came up, so that it can be said what was not tried.
"""

import collections
import itertools
import pickle

from checks import Difference, equal
from replay_script import read
from resends_mistakes import CountsAllPushesTogether, CountsAsTheFirstPush
from session import (CONDUCTS, FIGURES, GREATEST_NUMBER, MOST_PUSHES, SEND_SESSION_OK, TICKS_TO_ANSWER, TICKS_TO_WAIT,
                     UP)
from session_lines import open_response
from session_mistakes import (ClosesTheOldest, HeartbeatCountsFromItsOk, ObjectionDoesNotRestart, ResendGoesLast,
                              RestartsWhenTheTableMoves)
from swapped_mistakes import SWAPPED_MISTAKES, RoomComesWithTheTick
from swapped_pairs import (MESSAGES, OK, RESPONSE, SESSION_OK, THINGS, Message, Open, answer_handed_in, check_pair,
                           told_by)
from swapped_writer import RESENDS_AND_LEFT, brought_to, busy_lines

SEED = 113  # neither the model nor the wrong ones change from run to run
SESSIONS_JUDGED = len(RESENDS_AND_LEFT)
SESSIONS_RECORDED = 4 * len(RESENDS_AND_LEFT)  # under both conducts, with the SessionOk open and not
FULL_SESSIONS = (4, 8, 9)

# Later lists of calls.

TICK, LOST, STOP = ("tick",), ("lost",), ("stop",)
OPENED = ("message", read(open_response().partition(" ")[2].encode("ascii")))
BOTH_PUSHES = [("push_response", 5), ("push_advisory", 6)]
PAIRS_A_LONG_LIST = 12  # one in so many is judged by the long lists too, whose hundreds of ticks take the most time
LONGEST_WAIT_FOR_A_HEARTBEAT = 60  # in the others


def later_lists(kept, things, site):
    """Silence until all that can be open is closed, and a heartbeat came if that does not take too long; more messages
    for everything that was open; pushes up to the refusals, and the order in which they are lost; a stop."""
    messages = [("message", answer_handed_in(MESSAGES[(place + turn) % len(MESSAGES)], thing.number))
                for turn in range(2) for place, thing in enumerate(things)]
    ticks = max(TICKS_TO_ANSWER * (site.resends + 1), min(site.interval, LONGEST_WAIT_FOR_A_HEARTBEAT)) + 1
    return {
        "silence": silence(kept, things, ticks) + BOTH_PUSHES + [LOST],
        "messages": messages + BOTH_PUSHES + [TICK] * TICKS_TO_ANSWER + [LOST],
        "pushes": BOTH_PUSHES * (MOST_PUSHES // 2 + 1) + [TICK] * TICKS_TO_ANSWER + [STOP],
        "stop": [STOP, TICK] + BOTH_PUSHES,
    }


def answers_to_session_oks(events):
    return [("message", answer_handed_in(OK, number)) for code, number, _ in events if code == SEND_SESSION_OK]


def silence(kept, things, ticks):
    """Ticks, with an Ok for the open SessionOk and for each that comes, so that the session is not ended. Which numbers
    they take is asked of a session that no message came to."""
    session = pickle.loads(kept)
    calls = [("message", answer_handed_in(OK, thing.number)) for thing in things if thing.what == SESSION_OK]
    told_by(session, calls)
    for _ in range(ticks):
        (_, events, _), = told_by(session, [TICK])
        answers = answers_to_session_oks(events)
        told_by(session, answers)
        calls += [TICK, *answers]
    return calls


def long_lists(kept, things, site):
    """Lost, and up again; and silence up to a heartbeat, however long it takes."""
    calls = [LOST] + [TICK] * TICKS_TO_WAIT + [("connected",), OPENED]
    answers = answers_to_session_oks(told_by(pickle.loads(kept), calls)[-1][1])
    return {"new link": calls + answers + BOTH_PUSHES + [TICK] * TICKS_TO_ANSWER,
            "long silence": silence(kept, things, site.interval + 1)}


# All pairs of a session.


def pairs_among(things):
    """Each two messages that name something open, once: what judges them tries both orders."""
    return itertools.combinations_with_replacement([Message(kind, thing) for thing in things for kind in MESSAGES], 2)


def check_session(run, pairs):
    """Judges pairs of messages in the session that a run came to."""
    kept = pickle.dumps(run.session)
    laters = list(later_lists(kept, run.things(), run.site).values())
    with_long_ones = laters + list(long_lists(kept, run.things(), run.site).values())
    for place, (one, other) in enumerate(pairs):
        check_pair(kept, one, other, laters if place % PAIRS_A_LONG_LIST else with_long_ones)


def record_after(kept, *messages):
    """The whole record of the model's session, but for what only the call itself works with."""
    session = pickle.loads(kept)
    for kind, thing in messages:
        session.call("message", answer_handed_in(kind, thing.number))
    return {name: value for name, value in vars(session).items() if name not in ("held", "events")}


def check_records(run, pairs):
    """More than alike: the records are equal."""
    kept = pickle.dumps(run.session)
    for one, other in pairs:
        record = record_after(kept, one, other)
        equal(record_after(kept, other, one), record, "the record after two messages")
        if one.thing == other.thing and one.closes:
            equal(record_after(kept, one), record, "the record after the first alone")


# What has to come up.


def mix_of(one, other):
    """The name of a pair: its messages and what they name."""
    one, other = sorted((one, other), key=lambda message: (THINGS.index(message.thing.what), message.kind))
    if one.thing.number != other.thing.number:
        return "%s for %s, %s for %s" % (one.kind, one.thing.what, other.kind, other.thing.what)
    left = " with %d resends left" % one.thing.resends_left if one.thing.what == RESPONSE else ""
    return "%s, %s for one %s%s" % (one.kind, other.kind, one.thing.what, left)


def different_pairs(kinds):
    """A pair of messages for each mix that names two things."""
    for (one, what), (other, also) in itertools.combinations_with_replacement(itertools.product(kinds, THINGS), 2):
        if what != SESSION_OK or also != SESSION_OK:
            yield Message(one, Open(what, 1)), Message(other, Open(also, 2))


def pairs_of_one(kinds, most_left):
    """A pair of messages for each mix that names one thing."""
    for what in THINGS:
        for left in range(most_left + 1 if what == RESPONSE else 1):
            for one, other in itertools.combinations_with_replacement(kinds, 2):
                yield Message(one, Open(what, 1, 0, left)), Message(other, Open(what, 1, 0, left))


def at_resends(resends, one, other):
    return "%s, resends %d" % (mix_of(one, other), resends)


OF_SESSIONS = ["a gap in the numbers", "numbers on both sides of the wrap",
               "the last number just before one that is held", "a Response sent again", "pushes of three ages",
               "the SessionOk open", "no SessionOk open",
               *("conduct " + conduct for conduct in CONDUCTS)]
OF_LATER_LISTS = ["silence: event 3", "silence: event 5", "silence: event 11", "messages: event 12",
                  "messages: event 15", "pushes: event 11", "pushes: event 12", "pushes: refusal 7", "stop: event 12",
                  "stop: refusal 5", "new link: event 12", "new link: event 8", "long silence: event 3"]
TO_SEE_IN_PAIRS = [at_resends(resends, *pair) for resends in FIGURES for pair in (
    *different_pairs(MESSAGES), *pairs_of_one(MESSAGES, resends))] + OF_SESSIONS + OF_LATER_LISTS


def sightings_in(run):
    """What a session has of its own, whatever two messages come to it."""
    session, numbers = run.session, sorted(run.session.open_numbers())
    over_the_wrap = numbers[-1] - numbers[0] > GREATEST_NUMBER // 2
    seen = {
        "a gap in the numbers": not over_the_wrap and numbers[-1] - numbers[0] >= len(numbers),
        "numbers on both sides of the wrap": over_the_wrap,
        "the last number just before one that is held": (session.last + 1) % (GREATEST_NUMBER + 1) in numbers,
        "a Response sent again": any(len(push.sent_at) > 1 for push in session.pushes),
        "pushes of three ages": len({push.sent_at[-1] for push in session.pushes}) > 2,
        "the SessionOk open": session.session_ok is not None,
        "no SessionOk open": session.session_ok is None,
        "conduct " + session.site.conduct: True,
    }
    return [name for name, is_so in seen.items() if is_so]


def sightings_in_lists(run):
    """What the later lists come to where no message came before them."""
    kept = pickle.dumps(run.session)
    about = kept, run.things(), run.site
    for name, calls in {**later_lists(*about), **long_lists(*about)}.items():
        for refusal, events, _ in told_by(pickle.loads(kept), calls):
            yield from ("%s: event %d" % (name, event.code) for event in events)
            if refusal:
                yield "%s: refusal %d" % (name, refusal)


def test_session(number, seen):
    run = brought_to(busy_lines(SEED, number))
    equal(run.session.state, UP, "the state that a session is brought to")
    pairs = list(pairs_among(run.things()))
    check_session(run, pairs)
    seen.update(at_resends(run.site.resends, *pair) for pair in pairs)
    seen.update(sightings_in(run))
    seen.update(sightings_in_lists(run))


def test_records(number):
    run = brought_to(busy_lines(SEED, number))
    check_records(run, pairs_among(run.things()))


def test_full_table(number):
    """Pairs among some of what is open, the SessionOk too: all of them would take too long."""
    run = brought_to(busy_lines(SEED, number, is_full=True))
    equal(len(run.pushes), MOST_PUSHES, "pushes open")
    check_records(run, pairs_among(run.things()[::-4]))
    check_session(run, pairs_among(run.things()[::-16]))


def check_all_seen(seen, to_see):
    missing = [thing for thing in to_see if not seen[thing]]
    if missing:
        raise Difference("never met: " + ", ".join(missing))


# Mistakes: those that the judgement has to find, and those that it cannot, since they are wrong alike in either order.
# The tables of `swapped_examples` show the latter.
WRONG_ALIKE = (ObjectionDoesNotRestart, RestartsWhenTheTableMoves, HeartbeatCountsFromItsOk, RoomComesWithTheTick)
JUDGED = (*(mistake for mistake in SWAPPED_MISTAKES if mistake not in WRONG_ALIKE), ClosesTheOldest, ResendGoesLast,
          CountsAllPushesTogether, CountsAsTheFirstPush)

# The SessionOk is open in the even ones, and resends are more in the later ones: there is more to find.
FOR_MISTAKES = sorted(range(SESSIONS_JUDGED), key=lambda number: (number % 2, -number))


def is_judged_wrong(mistake, numbers, every=1):
    """Whether the judgement finds the mistake in one of the sessions, by each so many of its pairs; to stumble over two
    messages is one too. A wrong session that is not in Up, or has too little open, is not judged."""
    for number in numbers:
        run = brought_to(busy_lines(SEED, number), mistake)
        if run.session.state != UP or len(run.things()) < 2:
            continue
        try:
            check_session(run, list(pairs_among(run.things()))[::every])
        except (Difference, LookupError, ValueError, StopIteration):
            return True
    return False


def test_judged_wrong(mistake):
    if not is_judged_wrong(mistake, FOR_MISTAKES):
        raise Difference("no two messages show it")


def test_wrong_alike(mistake):
    """That the judgement cannot find it, so that it is known to be left to the scripts."""
    if is_judged_wrong(mistake, FOR_MISTAKES[:2], every=5):
        raise Difference("two messages show it")


def swapped_tests():
    """Names and calls of the tests of two messages at once."""
    seen = collections.Counter()
    for number in range(SESSIONS_JUDGED):
        yield "all pairs of session %d" % number, lambda number=number: test_session(number, seen)
    yield "everything met in the pairs", lambda: check_all_seen(seen, TO_SEE_IN_PAIRS)
    for number in range(SESSIONS_RECORDED):
        yield "the record after all pairs of session %d" % number, lambda number=number: test_records(number)
    for number in FULL_SESSIONS:
        yield "pairs in a full table, session %d" % number, lambda number=number: test_full_table(number)
    for mistake in JUDGED:
        yield "two messages show " + mistake.__name__, lambda mistake=mistake: test_judged_wrong(mistake)
    for mistake in WRONG_ALIKE:
        yield "wrong alike: " + mistake.__name__, lambda mistake=mistake: test_wrong_alike(mistake)
