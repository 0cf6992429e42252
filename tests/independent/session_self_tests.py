"""Tests of the session's model itself, so that the real code is not held against a mistake.

Each raises on a difference. What no script can show is called directly; captured vectors must keep their meaning;
random scripts must keep the promises that hold for every session; two messages at once must be alike in either order;
and mistakes must be noticed by the scripts written by hand, by the random ones and by the vectors.
"""

import copy
import itertools

from checks import Difference, compare_vectors_written_again, equal
from reader_answer import KINDS, NOT_THERE, VALUES, Answer, Value
from replay_script import Replay, replay
from scripts_by_hand import SCRIPTS_BY_HAND
from resends_sightings import OF_RESENDS, USED_UP
from session import (ACKNOWLEDGED, ADVISED, CONDUCTS, FIGURES, FITS, LINKED, LOST, MOST_PUSHES, NEW, SEND_ADVISORY,
                     SEND_RESPONSE, SEND_RESPONSE_AGAIN, STATES, STOPPED, TIMED_OUT, UP, WAITING, Session, Site)
from session_captured import captured_tests, told_without, with_settings
from session_cases import script_numbered
from session_lines import TO_CONFIRMING, TO_OPENING, TO_UP, script_of
from session_mistakes import MISTAKES
from session_sightings import OPENED_BY_REDUNDANT, TO_SEE, WatchedReplay
from session_vector_text import vector_from_text, vector_to_text
from swapped_examples import SWAPPED_BY_HAND
from swapped_printed import printed_tests
from swapped_sessions import WRONG_ALIKE, swapped_tests

SEED = 911  # the model does not change from run to run, so neither need its tests
SCRIPTS = 165  # of each style fifteen
SHORT_SCRIPT = 5000

GIVEN = {"push_response": (7,), "push_advisory": (7,), "unreadable": (9,), "message": (
    Answer(0, 0, KINDS.index("Request") + 1, (NOT_THERE,) * len(VALUES)),)}
BEGINNINGS = {"waiting": (), "connecting": ("tick",), "opening": TO_OPENING, "confirming": TO_CONFIRMING, "up": TO_UP,
              "stopped": TO_UP + ("stop",)}


def session_after(lines):
    run = Replay()
    run.run(script_of(lines))
    return run.session


def answer_of(kind, **values):
    return Answer(0, 0, KINDS.index(kind) + 1, tuple(values.get(name, NOT_THERE) for name in VALUES))


def test_short_list(state):
    """3 comes before all else, and nothing is changed."""
    for what in FITS:
        for places in (0, 39):
            session = session_after(BEGINNINGS[state])
            equal(session.state, state, "the state")
            before = copy.deepcopy(vars(session))
            equal(session.call(what, *GIVEN.get(what, ()), places=places), (3, []), what)
            equal(vars(session), before, "what is left by a refused " + what)


BAD_INTERVALS, GOOD_INTERVALS = (0, 20, 6001, 4294967295), (21, 100, 6000)
BAD_FIGURES = (4, 5, 255, 256, 4294967295)


def test_refused_making():
    """4 is looked at before 18, and both leave the same."""
    refused = [(4, site) for site in itertools.product(BAD_INTERVALS, CONDUCTS, (*FIGURES, *BAD_FIGURES))]
    refused += [(18, site) for site in itertools.product(GOOD_INTERVALS, CONDUCTS, BAD_FIGURES)]
    for refusal, site in refused:
        session = Session(Site(*site))
        equal((session.refusal, session.state, session.site, session.last, session.session_ok, session.pushes),
              (refusal, STOPPED, Site(interval=21, conduct=NEW, resends=0), 0, None, []), "the making of %s" % (site,))
        for what in FITS:
            equal(session.call(what, *GIVEN.get(what, ())), (5, []), what)


def test_making_without_conduct():
    equal(Session(Site(100)).site, Site(interval=100, conduct=NEW, resends=1), "a site that names the interval alone")
    for conduct in CONDUCTS:
        equal(Session(Site(100, conduct)).site, Site(100, conduct), "a site that names one")


def test_making_with_resends():
    for site in itertools.product(GOOD_INTERVALS, CONDUCTS, FIGURES):
        session = Session(Site(*site))
        equal((session.refusal, session.state, session.site), (0, WAITING, site), "the making of %s" % (site,))


def test_stop_keeps():
    for state, conduct, resends in itertools.product(BEGINNINGS, CONDUCTS, FIGURES):
        session = session_after(("interval 77", "conduct " + conduct, "resends %d" % resends) + BEGINNINGS[state])
        last = session.last
        session.call("stop")
        equal((session.state, session.site), (STOPPED, Site(77, conduct, resends)), "stop in " + state)
        equal(session.last - last, 1 if state in LINKED else 0, "the numbers that stop takes in " + state)
    session = session_after(("interval 77",) + TO_UP + ("push 1", "stop"))
    equal((session.site.interval, session.last), (77, 4), "interval and last number")


def test_nothing_else_differs():
    """The conducts tell apart the scripts that meet RedundantSession in Opening, and no others."""
    for script in (script for script, _ in short_by_hand() if b"conduct" not in script):
        new, old = WatchedReplay(), WatchedReplay()
        differ = new.run(with_settings(("conduct new",), script)) != old.run(with_settings(("conduct old",), script))
        equal(differ, old.seen[OPENED_BY_REDUNDANT] > 0, "whether the conducts differ in %.300r" % script)


def test_figures_tell_apart():
    """A figure and the next tell apart the scripts in which a Response is used up under the lesser, and no others."""
    for script in (script for script, _ in short_by_hand() if b"resends" not in script):
        for resends in FIGURES[:-1]:
            lesser, greater = WatchedReplay(), WatchedReplay()
            differ = lesser.run(with_settings(("resends %d" % resends,), script)) != greater.run(
                with_settings(("resends %d" % (resends + 1),), script))
            equal(differ, lesser.seen[USED_UP] > 0, "whether more resends than %d differ in %.300r" % (resends, script))


def test_one_resend_where_absent():
    settings = ("resends 1",)
    for script in (script for script, _ in short_by_hand() if b"resends" not in script):
        told = told_without(settings, replay(with_settings(settings, script)))
        equal(told, replay(script), "resends 1 said for %.300r" % script)


# After `TO_UP` and a push the Response 3 is open. An answer that no reader gives is taken as it stands: a value that is
# not there names nothing and means other, whatever else is said of it.
NAMES_3 = Value(1, 0, 1, 1, 3)
NAMES_3_NOT_THERE = Value(0, 0, 1, 1, 3)
IN_OPENING_OF_OLD = ("conduct old",) + TO_OPENING
HANDED_IN = (
    (TO_OPENING, answer_of("SessionOpenResponse"), [(7, 0, 0)]),
    (TO_OPENING, answer_of("SessionOpenResponse", status=Value(0, 0, 0, 1, 0)), [(7, 0, 0)]),
    (TO_OPENING, answer_of("SessionOpenResponse", status=Value(0, 0, 0, 2, 0)), [(7, 0, 0)]),
    (TO_OPENING, answer_of("SessionOpenResponse", status=Value(1, 0, 0, 2, 0)), [(7, 0, 0)]),
    (IN_OPENING_OF_OLD, answer_of("SessionOpenResponse"), [(7, 0, 0)]),
    (IN_OPENING_OF_OLD, answer_of("SessionOpenResponse", status=Value(0, 0, 0, 1, 0)), [(7, 0, 0)]),
    (IN_OPENING_OF_OLD, answer_of("SessionOpenResponse", status=Value(0, 0, 0, 2, 0)), [(7, 0, 0)]),
    (IN_OPENING_OF_OLD, answer_of("SessionOpenResponse", status=Value(1, 0, 0, 2, 0)), [(3, 2, 0)]),
    (TO_UP + ("push 9",), answer_of("Ok"), [(15, 0, 0)]),
    (TO_UP + ("push 9",), answer_of("Ok", inResponseTo=NAMES_3_NOT_THERE), [(15, 0, 0)]),
    (TO_UP + ("push 9",), answer_of("Ok", inResponseTo=Value(1, 0, 1, 0, 3)), [(15, 0, 0)]),
    (TO_UP + ("push 9",), answer_of("Ok", inRelationTo=NAMES_3), [(15, 0, 0)]),
    (TO_UP + ("push 9",), answer_of("Ok", inResponseTo=NAMES_3), [(9, 3, 9)]),
    (TO_UP + ("push 9",), answer_of("Advisory", inRelationTo=NAMES_3_NOT_THERE, type=Value(1, 0, 0, 1, 0)),
     [(17, 0, 0)]),
    (TO_UP + ("push 9",), answer_of("Advisory", inRelationTo=NAMES_3), [(10, 3, 9)]),
    (TO_UP + ("push 9",), answer_of("Advisory", inRelationTo=NAMES_3, type=Value(0, 0, 0, 1, 0)), [(10, 3, 9)]),
    (TO_UP + ("push 9",), answer_of("Advisory", inRelationTo=NAMES_3, type=Value(1, 0, 0, 1, 0)), [(5, 3, 9)]),
    (TO_UP + ("push 9",), answer_of("Request"), [(13, 0, 0)]),
    (TO_UP + ("push 9",), answer_of("Response", inResponseTo=NAMES_3), [(14, 0, 0)]),
)


def test_handed_in():
    for lines, answer, expected in HANDED_IN:
        refusal, events = session_after(lines).call("message", answer)
        equal((refusal, [tuple(event) for event in events]), (0, expected), "%s" % (answer,))


class Audit(Replay):
    """Keeps an account of every push from the events alone, and checks what holds after every call."""

    def __init__(self):
        super().__init__()
        self.site_made = None
        self.sent_at = {}  # the open pushes by number: the clock at each sending
        self.most_sendings = {}  # by number too

    def call(self, what, *given):
        before = copy.deepcopy(vars(self.session)) if what != "tick" else None
        refusal, events = super().call(what, *given)
        if refusal and before:
            equal(vars(self.session), before, "what a refused call leaves")
        for event in events:
            self.account(event, what)
        if events or what != "tick":
            self.check_session(events)
        return refusal, events

    def end_settings(self):
        super().end_settings()
        self.site_made = self.session.site

    def account(self, event, what):
        clock, number = self.session.clock, event.number
        if event.code in (SEND_RESPONSE, SEND_ADVISORY):
            if number in self.sent_at:
                raise Difference("number %d is given twice" % number)
            self.sent_at[number] = [clock]
            self.most_sendings[number] = self.site_made.resends + 1 if event.code == SEND_RESPONSE else 1
        elif event.code == SEND_RESPONSE_AGAIN:
            if what == "tick":
                equal(clock - self.sent_at[number][-1], 20, "ticks before push %d was sent again" % number)
            self.sent_at[number].append(clock)
        elif event.code in (ACKNOWLEDGED, ADVISED, TIMED_OUT, LOST):
            sent_at = self.sent_at.pop(number)
            if event.code == TIMED_OUT:
                equal((clock - sent_at[-1], len(sent_at)), (20, self.most_sendings[number]),
                      "ticks and sendings before push %d timed out" % number)

    def check_session(self, events):
        session = self.session
        numbers = [push.number for push in session.pushes]
        equal(session.site, self.site_made, "what was chosen at the making")
        equal(numbers, list(self.sent_at), "the open pushes, in order of acceptance")
        if len(events) > MOST_PUSHES + 2 or len(numbers) > MOST_PUSHES or numbers and session.state != UP:
            raise Difference("%d events, %d pushes open in %s" % (len(events), len(numbers), session.state))
        if session.session_ok in numbers:
            raise Difference("the SessionOk has a push's number")
        for number, sent_at in self.sent_at.items():
            most, clock = self.most_sendings[number], session.clock
            if len(sent_at) > most or clock - sent_at[-1] >= 20 or clock - sent_at[0] >= 20 * most:
                raise Difference("push %d, sent at %s, is open at %d" % (number, sent_at, clock))


def test_promises():
    for number in range(SCRIPTS):
        Audit().run(script_numbered(SEED, number))


def replay_with(mistake):
    """A replay of the wrong session; the replay itself where that is what is wrong."""
    if issubclass(mistake, Replay):
        return mistake()
    run = Replay()
    run.session_type = mistake
    return run


def is_noticed(mistake, scripts):
    """Whether the mistake makes a difference on one of the scripts; to stumble is one too."""
    for script, expected in scripts:
        try:
            if replay_with(mistake).run(script) != expected:
                return True
        except (LookupError, ValueError, StopIteration):
            return True
    return False


def test_noticed(mistake, scripts):
    if not is_noticed(mistake, scripts):
        raise Difference("no script shows it")


def short_by_hand():
    for _, script, expected in SCRIPTS_BY_HAND:
        if len(script) < SHORT_SCRIPT and b"tick 1000000" not in script:
            yield script, expected


def random_scripts():
    for number in range(SCRIPTS):
        script = script_numbered(SEED, number)
        yield script, replay(script)


def scripts_of(vector_lines):
    """The newest first: what is wrong about them is not met before."""
    for line in reversed(vector_lines):
        script = vector_from_text(line).script
        yield script, replay(script)


def test_sightings_are_told_apart():
    equal(len(set(TO_SEE)), len(TO_SEE), "things to see")


def test_vectors_meet_resends(vector_lines):
    seen = set()
    for line in vector_lines:
        watched = WatchedReplay()
        watched.run(vector_from_text(line).script)
        seen |= set(+watched.seen)
    equal([thing for thing in OF_RESENDS if thing not in seen], [], "what the vectors do not meet")


def direct_tests():
    """What no script can show, or none alone."""
    for state in STATES:
        yield "a short event list in %s" % state, lambda state=state: test_short_list(state)
    yield "refused making", test_refused_making
    yield "making without conduct", test_making_without_conduct
    yield "making with resends", test_making_with_resends
    yield "stop keeps", test_stop_keeps
    yield "nothing else differs", test_nothing_else_differs
    yield "figures tell apart", test_figures_tell_apart
    yield "one resend where absent", test_one_resend_where_absent
    yield "answers handed in", test_handed_in


def all_self_tests(vector_lines):
    """Names and calls of all self-tests."""
    yield from direct_tests()
    yield from captured_tests()
    yield "promises", test_promises
    yield from swapped_tests()
    yield from printed_tests()
    by_tables = [(script, expected) for _, script, expected in SWAPPED_BY_HAND]
    for mistake in WRONG_ALIKE:
        yield "tables show " + mistake.__name__, lambda mistake=mistake: test_noticed(mistake, by_tables)
    yield "sightings", test_sightings_are_told_apart
    yield "sightings in the vectors", lambda: test_vectors_meet_resends(vector_lines)
    by_hand, by_chance, by_vectors = list(short_by_hand()), list(random_scripts()), list(scripts_of(vector_lines))
    for mistake in MISTAKES:
        yield "by hand: " + mistake.__name__, lambda mistake=mistake: test_noticed(mistake, by_hand)
        yield "by chance: " + mistake.__name__, lambda mistake=mistake: test_noticed(mistake, by_chance)
        yield "by vectors: " + mistake.__name__, lambda mistake=mistake: test_noticed(mistake, by_vectors)
    yield "vectors can be read", (
        lambda: compare_vectors_written_again(vector_lines, vector_from_text, vector_to_text))
