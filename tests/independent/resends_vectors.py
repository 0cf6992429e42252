"""The groups of the fixed session vectors that are about how often to resend (document 02, M-105); a part of
`make_session_vectors`. Each gives names and lines.
"""

import itertools

from session import FIGURES
from session_lines import REDUNDANT, TO_CONFIRMING, TO_OPENING, TO_UP, advisory, ok, open_response, unreadable
from session_vector_parts import LASTS, STATES, WAYS_TO_WAIT, long_life

NOT_AS_BEFORE = (0, 2, 3)
FATES = {"ok": ok(3), "advisory": advisory(3), "unreadable": unreadable(3)}
SILENCE = ("push 9", "tick 99")

# What the settings are is shown by a Response in silence, a heartbeat and a second opening.
SETTINGS = {
    "0": ("resends 0",), "1": ("resends 1",), "2": ("resends 2",), "3": ("resends 3",), "4": ("resends 4",),
    "10": ("resends 10",), "255": ("resends 255",), "256": ("resends 256",), "65536": ("resends 65536",),
    "4294967295": ("resends 4294967295",), "4294967296": ("resends 4294967296",),
    "4294967298": ("resends 4294967298",), "18446744073709551618": ("resends 18446744073709551618",),
    "0-3": ("resends 0", "resends 3"), "3-0": ("resends 3", "resends 0"),
    "1-2-3": ("resends 1", "resends 2", "resends 3"),
    "4-2": ("resends 4", "resends 2"), "2-4": ("resends 2", "resends 4"), "between-empty": ("", "resends 3", "", ""),
    "3-interval": ("resends 3", "interval 90"), "interval-3": ("interval 90", "resends 3"),
    "3-old": ("resends 3", "conduct old"), "old-3": ("conduct old", "resends 3"),
    "old-3-interval": ("conduct old", "resends 3", "interval 90"),
    "0-interval-3": ("resends 0", "interval 90", "resends 3"),
    "interval-3-old": ("interval 90", "resends 3", "conduct old"),
    "3-old-interval": ("resends 3", "conduct old", "interval 90"),
    "4-and-interval-refused": ("resends 4", "interval 20"), "interval-refused-and-4": ("interval 20", "resends 4"),
    "3-and-interval-refused": ("resends 3", "interval 6001"),
    "4-and-interval-refused-once": ("interval 20", "resends 4", "interval 90"),
    "4-and-old": ("resends 4", "conduct old"), "interval-refused-4-old": ("interval 20", "resends 4", "conduct old"),
    "no-figure": ("resends", "resends 3"), "leading-zero": ("resends 03", "resends 3"), "minus": ("resends -1",),
    "plus": ("resends +3",), "two-blanks": ("resends  3",), "blank-behind": ("resends 3 ",),
    "cr-behind": ("resends 3\r",), "more-behind": ("resends 0", "resends 3 3"), "upper": ("Resends 3",),
    "word": ("resends three",),
    "behind-a-bad-line": ("x", "resends 3"), "behind-last": ("last 0", "resends 3"),
    "4-behind-last": ("last 0", "resends 4"),
}


def said(resends):
    return ("resends %d" % resends,)


def in_silence():
    for resends, push in itertools.product(FIGURES, ("push", "advise")):
        yield "resends-%d-%s-silence" % (resends, push), said(resends) + TO_UP + (push + " 17", "tick 99")


def fates_of_responses():
    """Each answer after so many ticks, then silence."""
    for resends, ticks, fate in itertools.product(NOT_AS_BEFORE, (5, 19, 20, 39, 40, 59, 60, 79, 80), FATES):
        if ticks <= 20 * (resends + 1):
            yield ("resends-%d-fate-%d-%s" % (resends, ticks, fate),
                   said(resends) + TO_UP + ("push 17", "tick %d" % ticks, FATES[fate], "tick 19", "tick", "tick 20"))


def fates_of_advisories():
    for resends, ticks, fate in itertools.product(FIGURES, (5, 19, 20), ("ok", "unreadable")):
        yield ("resends-%d-advise-%d-%s" % (resends, ticks, fate),
               said(resends) + TO_UP + ("advise 17", "tick %d" % ticks, FATES[fate], "tick 20", FATES[fate]))


def ways_to_the_end():
    """Each sending ends by time (t) or by UnreadableMessage (u), in every order."""
    lines = {"t": ("tick 20",), "u": ("tick 7", unreadable(3))}
    for resends in FIGURES:
        for ways in itertools.product("tu", repeat=resends + 1):
            passed = tuple(line for way in ways for line in lines[way])
            yield ("resends-%d-by-%s" % (resends, "".join(ways)),
                   said(resends) + TO_UP + ("push 17",) + passed + (ok(3), "tick 20"))


def several_pushes():
    """Pushes of different ages, and objections to one of them."""
    for resends, number in itertools.product(FIGURES, (3, 4, 5, 6)):
        objection = unreadable(number)
        yield ("resends-%d-several-%d" % (resends, number),
               said(resends) + TO_UP + (
                   "push 1", "tick 4", "advise 2", "push 3", "tick 5", "push 4", objection, "tick 11", objection,
                   "tick", "push 5", "tick 9", objection, objection, "tick 90"))


def about_heartbeats():
    for resends, interval, answered in itertools.product(NOT_AS_BEFORE, (21, 40, 60, 80, 100), (0, 1)):
        answers = (ok(5), ok(6)) if answered else (ok(5), ok(7))
        yield ("resends-%d-heartbeat-%d-%d" % (resends, interval, answered),
               ("interval %d" % interval,) + said(resends) + TO_UP
               + ("push 1", "advise 2", "tick %d" % interval, answers[0], "push 3", "tick %d" % interval, answers[1],
                  "tick 20", "tick 300"))


def full_tables():
    for resends in FIGURES:
        yield ("resends-%d-full" % resends,
               said(resends) + STATES["full"] + (
                   "tick 5", unreadable(3), unreadable(4), unreadable(33), "push 9", "tick 15", "push 7", "tick 20",
                   "tick 20", "push 6", "tick 20", "stop"))
    for resends, interval in itertools.product(NOT_AS_BEFORE, (40, 60, 80)):
        yield ("resends-%d-full-%d" % (resends, interval),
               said(resends) + ("interval %d" % interval,) + TO_UP + ("push 41",) * 32
               + ("tick %d" % interval, "tick 19", "tick", "tick 300"))


def figures_kept():
    """Each way into Waiting, and a Response in the next link."""
    again = ("last 99", "tick 300", "connected", open_response(), ok(101)) + SILENCE
    for resends, (way, lines) in itertools.product(FIGURES, WAYS_TO_WAIT.items()):
        yield "resends-%d-kept-%s" % (resends, way), said(resends) + lines + again


def numbers_taken():
    """A resend takes none, and the number of a push that was sent again is passed over."""
    for last in LASTS:
        line = "last %d" % last
        yield ("resends-3-last-%d" % last,
               said(3) + TO_UP + (line, "push 1", "tick 20", "push 2", "tick 20", line, "advise 3", "push 4", "tick 19",
                                  line, "tick", "push 5", "stop"))


def never_sent_again():
    for resends in FIGURES:
        yield "resends-%d-opening-runs-out" % resends, said(resends) + TO_OPENING + ("tick 19", "tick", "tick 60")
        yield "resends-%d-confirming-runs-out" % resends, said(resends) + TO_CONFIRMING + ("tick 19", "tick", "tick 60")
        yield ("resends-%d-heartbeat-runs-out" % resends,
               said(resends) + TO_UP + ("tick 100", unreadable(2), "tick 19", "tick", "tick 60"))
        yield ("resends-%d-heartbeat-unreadable" % resends,
               said(resends) + TO_UP + ("tick 100", unreadable(3), "tick 20", unreadable(3)))


def under_the_old_conduct():
    for resends in FIGURES:
        more = TO_OPENING + (REDUNDANT, ok(2), "push 9", "advise 8", "tick 7", unreadable(3), "tick 90")
        yield "resends-%d-then-old" % resends, said(resends) + ("conduct old",) + more
        yield "old-then-resends-%d" % resends, ("conduct old",) + said(resends) + more


def settings_of_resends():
    more = TO_UP + ("push 9", "tick 90", "resends 2", "lost", "tick 300", "connected", REDUNDANT, "tick 20")
    for name, lines in SETTINGS.items():
        yield "settings-resends-" + name, lines + more


def long_lives():
    for resends, interval in ((0, 40), (2, 21), (3, 100)):
        yield ("resends-%d-life-%d" % (resends, interval), long_life("interval %d" % interval, *said(resends)))


RESENDS_GROUPS = (in_silence, fates_of_responses, fates_of_advisories, ways_to_the_end, several_pushes,
                  about_heartbeats, full_tables, figures_kept, numbers_taken, never_sent_again, under_the_old_conduct,
                  settings_of_resends, long_lives)
