"""Makes the fixed session vectors:  python3 tests/independent/make_session_vectors.py > tests/vectors/session.txt

`session_vector_text` describes the form. Everything expected comes from the model in `session`. Nothing is random here,
so that every Python makes the same.
"""

import itertools
import sys

from replay_script import replay
from resends_vectors import RESENDS_GROUPS
from session_lines import (NEARLY_REDUNDANT, OPEN_REQUEST, REDUNDANT, REDUNDANT_OTHERWISE, REQUEST, RESPONSE,
                           TO_CONFIRMING, TO_OPENING, TO_UP, advisory, ok, open_response, opened_with, script_of,
                           session_ok, unreadable)
from session_vector_parts import LASTS, STATES, WAYS_TO_WAIT, long_life
from session_vector_text import Vector, output_to_text, vector_to_text

CALLS = {
    "tick": "tick", "tick-20": "tick 20", "tick-300": "tick 300", "connected": "connected", "lost": "lost",
    "stop": "stop", "push": "push 9", "advise": "advise 9", "unreadable-7": "unreadable 7",
    "unreadable-8": "unreadable 8", "unreadable-14": "unreadable 14", "unreadable-15": "unreadable 15",
    "no-message": "message x", "open-request": OPEN_REQUEST, "opened": open_response(),
    "opened-redundant": REDUNDANT, "opened-not": open_response("Other"),
    "session-ok": session_ok(2), "ok-2": ok(2), "ok-3": ok(3), "ok-5": ok(5), "ok-02": ok("02"),
    "advisory": advisory(), "advisory-2": advisory(2), "advisory-3": advisory(3), "unreadable-message": unreadable(),
    "unreadable-message-2": unreadable(2), "unreadable-message-3": unreadable(3), "unreadable-message-4": unreadable(4),
    "unreadable-message-5": unreadable(5), "request": REQUEST, "response": RESPONSE,
}
REFUSED_ALIKE = ("waiting", "connecting", "stopped")  # where every message is refused, a few of them will do
FEW_CALLS = ("tick", "tick-300", "connected", "lost", "stop", "push", "advise", "unreadable-7", "unreadable-8",
             "no-message", "opened", "opened-redundant", "ok-2", "advisory")
FATES = {"ok": ok(3), "advisory": advisory(3), "unreadable": unreadable(3), "lost": "lost", "stop": "stop"}

# The conducts, as they come into the names of vectors, and the settings that say so.
CONDUCTS = {"default": (), "new": ("conduct new",), "old": ("conduct old",)}
SETTINGS = {
    "old-new": ("conduct old", "conduct new"), "new-old": ("conduct new", "conduct old"),
    "old-new-old": ("conduct old", "conduct new", "conduct old"), "old-interval": ("conduct old", "interval 40"),
    "interval-old": ("interval 40", "conduct old"), "new-interval": ("conduct new", "interval 40"),
    "interval-new": ("interval 40", "conduct new"), "old-interval-new": ("conduct old", "interval 40", "conduct new"),
    "interval-old-interval": ("interval 30", "conduct old", "interval 40"),
    "old-refused": ("conduct old", "interval 20"), "refused-old": ("interval 20", "conduct old"),
    "old-between-empty": ("", "", "conduct old", ""),
    "no-word": ("conduct", "conduct old"), "upper": ("conduct old", "conduct New", "conduct new"),
    "two-blanks": ("conduct  old",), "blank-behind": ("conduct old ",), "cr-behind": ("conduct old\r",),
    "more-behind": ("conduct old", "conduct new x"), "other": ("conduct other", "conduct old", "interval 40"),
    "behind-a-bad-line": ("x", "conduct old"), "behind-last": ("last 0", "conduct old"),
}


def every_call_in_every_state():
    for state, lines in STATES.items():
        for call in FEW_CALLS if state in REFUSED_ALIKE else CALLS:
            yield "%s-%s" % (state, call), lines + (CALLS[call], "push 8", "tick 19", "tick")


def fates_of_pushes():
    """Each answer after so many ticks, then silence."""
    for push, ticks, fate in itertools.product(("push", "advise"), (1, 5, 19, 20, 21, 39, 40), FATES):
        yield ("fate-%s-%d-%s" % (push, ticks, fate),
               TO_UP + (push + " 17", "tick %d" % ticks, FATES[fate], "tick 19", "tick", "tick 20"))


def pushes_about_heartbeats():
    for interval, before, answered in itertools.product((21, 22, 40, 41, 100), (41, 40, 39, 21, 20, 19, 1), (0, 1)):
        if before < interval:
            answer = (ok(5),) if answered else (REQUEST,)
            yield ("heartbeat-%d-%d-%d" % (interval, before, answered),
                   ("interval %d" % interval,) + TO_UP + ("tick %d" % (interval - before), "push 1", "advise 2",
                                                          "tick %d" % before) + answer + ("tick 20", "tick 300"))


def late_confirming():
    for interval, ticks in itertools.product((21, 22, 40, 6000), (1, 18, 19, 20)):
        left = interval - ticks - 1
        yield ("confirmed-%d-%d" % (interval, ticks),
               ("interval %d" % interval,) + TO_CONFIRMING
               + ("tick %d" % ticks, ok(2), "tick %d" % left, "tick", "tick 19", ok(3)))


def numbers_taken():
    """The next number, taken by each call that takes one, after each last number."""
    for last in LASTS:
        line = "last %d" % last
        yield "last-%d-connected" % last, ("tick", line, "connected", open_response(), "tick 20")
        yield "last-%d-opening-runs-out" % last, TO_OPENING + (line, "tick 20", "tick 300", "connected")
        yield "last-%d-confirming-stop" % last, TO_CONFIRMING + (line, "stop")
        yield "last-%d-confirming-runs-out" % last, TO_CONFIRMING + (line, "tick 20", "tick 300", "connected")
        for name in ("push", "advise", "tick-20", "stop"):
            yield "last-%d-busy-%s" % (last, name), STATES["busy"] + (line, CALLS[name], "push 8", "stop")
        yield "last-%d-many" % last, TO_UP + (line,) + ("push 1", "advise 2") * 4 + (line, "push 3", "tick 100", "stop")


def numbers_of_what_is_closed():
    """A number that the call itself frees is not taken by it."""
    for push, last in itertools.product(("push 1", "advise 1"), (1, 2, 3)):
        for interval in (40, 41):
            yield ("freed-%s-%d-%d" % (push[:-2], interval, last),
                   ("interval %d" % interval,) + TO_UP
                   + (push, "tick 20", "advise 2", "last %d" % last, "tick 20", "tick"))
        yield "freed-%s-lost-%d" % (push[:-2], last), TO_UP + (push, "lost", "last %d" % last, "tick 300", "connected")


def full_tables():
    for place in (0, 1, 15, 16, 30, 31):
        number = place + 3
        yield ("full-%d" % place,
               STATES["full"] + ("tick 5", ok(number), "advise 8", "push 9", "tick 15", "push 7", "tick 20", "tick 20"))
        yield "full-%d-again" % place, STATES["full"] + ("tick 5", unreadable(number), "push 9", "tick 15", "tick 20")


def ways_to_wait():
    """Each way into Waiting, and how long it lasts."""
    for name, lines in WAYS_TO_WAIT.items():
        more = ("tick 299", "connected", "tick", "connected", open_response(), "tick 20")
        yield "waits-" + name, lines + more
        yield "waits-old-" + name, CONDUCTS["old"] + lines + more


def conducts_kept():
    """Each way into Waiting, and two more openings that are answered by RedundantSession."""
    again = ("tick 300", "connected", REDUNDANT, "tick 20")
    for (conduct, settings), (way, lines) in itertools.product(CONDUCTS.items(), WAYS_TO_WAIT.items()):
        yield "kept-%s-%s" % (conduct, way), settings + lines + again + again + ("tick 280",)


def redundant_in_every_state():
    """Where the conduct is said; `every_call_in_every_state` has it by default."""
    for conduct, (state, lines) in itertools.product(("new", "old"), STATES.items()):
        yield ("%s-%s-opened-redundant" % (conduct, state),
               CONDUCTS[conduct] + lines + (REDUNDANT, "push 8", "tick 19", "tick"))


def statuses():
    """Each status in Opening, then silence to the tick at which Waiting ends, whichever way it came."""
    answers = {"ok": open_response(), "other": open_response("Other"), "empty": opened_with(""),
               "none": "message <SessionOpenResponse/>"}
    answers.update(("redundant-otherwise-%d" % number, line)
                   for number, line in enumerate(REDUNDANT_OTHERWISE.values(), 1))
    answers.update(("nearly-redundant-%d" % number, opened_with(status))
                   for number, status in enumerate(NEARLY_REDUNDANT, 1))
    for (conduct, settings), (name, line) in itertools.product(CONDUCTS.items(), answers.items()):
        yield ("status-%s-%s" % (conduct, name),
               settings + TO_OPENING + (line, "tick 299", "tick", "tick 20", "connected"))


def redundant_after_ticks():
    for (conduct, settings), ticks in itertools.product(CONDUCTS.items(), (1, 18, 19, 20)):
        yield ("redundant-%s-after-%d" % (conduct, ticks),
               settings + TO_OPENING + ("tick %d" % ticks, REDUNDANT, "tick 19", ok(2), "tick", "tick 279", "tick"))


def redundant_after_last():
    for (conduct, settings), last in itertools.product(CONDUCTS.items(), LASTS):
        line = "last %d" % last
        yield ("redundant-%s-last-%d" % (conduct, last),
               settings + TO_OPENING + (line, REDUNDANT, "lost", "tick 300", "connected", REDUNDANT, "stop"))


def settings_of_conduct():
    """The interval is shown by the heartbeat, the conduct by the second opening."""
    for name, lines in SETTINGS.items():
        yield "settings-" + name, lines + TO_UP + ("tick 40", "lost", "tick 300", "connected", REDUNDANT, "tick 20")
    for first, second in itertools.permutations(("new", "old")):
        yield ("settings-%s-and-%s-among-calls" % (first, second),
               CONDUCTS[first] + TO_OPENING + CONDUCTS[second] + (REDUNDANT, "lost", *CONDUCTS[second], "tick 300",
                                                                  "connected", REDUNDANT))


def long_lives():
    for interval in (21, 22, 37, 40, 100):
        yield "life-%d" % interval, long_life("interval %d" % interval)


GROUPS = (every_call_in_every_state, fates_of_pushes, pushes_about_heartbeats, late_confirming, numbers_taken,
          numbers_of_what_is_closed, full_tables, ways_to_wait, long_lives, redundant_in_every_state, statuses,
          redundant_after_ticks, redundant_after_last, conducts_kept, settings_of_conduct) + RESENDS_GROUPS


def all_vectors():
    for group in GROUPS:
        for name, lines in group():
            script = script_of(lines)
            yield Vector(name, script, output_to_text(replay(script)))


def vectors_text():
    return "".join(vector_to_text(vector) + "\n" for vector in all_vectors())


if __name__ == "__main__":
    sys.stdout.write(vectors_text())
