"""Scripts about how often a push is sent with the output due, from document 02 (M-105), the rulings on it with their
table of times, and document 01 ("The session"). Nothing was found by running anything.

The forms of the setting itself are in `resends_setting_examples`. The first push after `TO_UP` is call 5 and has
number 3; tick t after it is call 5 + t where no other call comes between. The heartbeat comes 100 ticks after the
SessionOk, so that it does not disturb scripts of 99 ticks.
"""

from conduct_examples import SECOND_OPENINGS
from reader_messages import UNREADABLE_URI
from session_examples import CONFIRMING_TOLD, OPENING_TOLD, UP_TOLD, case, listed
from session_lines import REDUNDANT, TO_CONFIRMING, TO_OPENING, TO_UP, advisory, ok, open_response, unreadable

FIGURES = (0, 1, 2, 3)


def said(resends):
    return ("resends %d" % resends,)


def at(resends, name, lines, *told):
    """In Up, with that many resends."""
    return case("%s, resends %d" % (name, resends), said(resends) + TO_UP + lines, UP_TOLD, *told)


def at_each(name, lines, *told):
    """A script that all figures tell the same of."""
    return tuple(at(resends, name, lines, *told) for resends in FIGURES)


# The rulings' table of times, and the figure that it leaves out.
TABLE_OF_TIMES = (
    at(0, "a Response in silence", ("push 9", "tick 99"), "5 4 3 9, 25 11 3 9, end up 0"),
    at(1, "a Response in silence", ("push 9", "tick 99"), "5 4 3 9, 25 5 3 9, 45 11 3 9, end up 0"),
    at(2, "a Response in silence", ("push 9", "tick 99"), "5 4 3 9, 25 5 3 9, 45 5 3 9, 65 11 3 9, end up 0"),
    at(3, "a Response in silence", ("push 9", "tick 99"),
       "5 4 3 9, 25 5 3 9, 45 5 3 9, 65 5 3 9, 85 11 3 9, end up 0"),
    at(0, "UnreadableMessage at tick 5, then silence", ("push 9", "tick 5", unreadable(3), "tick 94"),
       "5 4 3 9, 11 10 3 9, end up 0"),
    at(1, "UnreadableMessage at tick 5, then silence", ("push 9", "tick 5", unreadable(3), "tick 94"),
       "5 4 3 9, 11 5 3 9, 31 11 3 9, end up 0"),
    at(2, "UnreadableMessage at tick 5, then silence", ("push 9", "tick 5", unreadable(3), "tick 94"),
       "5 4 3 9, 11 5 3 9, 31 5 3 9, 51 11 3 9, end up 0"),
    at(3, "UnreadableMessage at tick 5, then silence", ("push 9", "tick 5", unreadable(3), "tick 94"),
       "5 4 3 9, 11 5 3 9, 31 5 3 9, 51 5 3 9, 71 11 3 9, end up 0"),
    *at_each("an Advisory push in silence", ("advise 9", "tick 99"), "5 6 3 9, 25 11 3 9, end up 0"),
    *at_each("UnreadableMessage at tick 5 for an Advisory push", ("advise 9", "tick 5", unreadable(3), "tick 94"),
             "5 6 3 9, 11 10 3 9, end up 0"),
)

ONE_TICK_BEFORE = (
    at(0, "a Response a tick before its end", ("push 9", "tick 19"), "5 4 3 9, end up 1"),
    at(1, "a Response a tick before its end", ("push 9", "tick 39"), "5 4 3 9, 25 5 3 9, end up 1"),
    at(2, "a Response a tick before its end", ("push 9", "tick 59"), "5 4 3 9, 25 5 3 9, 45 5 3 9, end up 1"),
    at(3, "a Response a tick before its end", ("push 9", "tick 79"),
       "5 4 3 9, 25 5 3 9, 45 5 3 9, 65 5 3 9, end up 1"),
    at(2, "a Response a tick before its second resend", ("push 9", "tick 39"), "5 4 3 9, 25 5 3 9, end up 1"),
    at(3, "a Response a tick before its third resend", ("push 9", "tick 59"),
       "5 4 3 9, 25 5 3 9, 45 5 3 9, end up 1"),
    at(3, "UnreadableMessage at tick 5, then a tick before the end", ("push 9", "tick 5", unreadable(3), "tick 59"),
       "5 4 3 9, 11 5 3 9, 31 5 3 9, 51 5 3 9, end up 1"),
    *at_each("an Advisory push a tick before its end", ("advise 9", "tick 19"), "5 6 3 9, end up 1"),
)

# What silence brings up to so many resends; the push is open after each.
RESENDS_TOLD = ("5 4 3 9", "5 4 3 9, 25 5 3 9", "5 4 3 9, 25 5 3 9, 45 5 3 9",
                "5 4 3 9, 25 5 3 9, 45 5 3 9, 65 5 3 9")


def answers():
    """An Ok, or another Advisory, closes a Response however often it was sent: right after a resend, and in the last
    tick before the next one. After its end it is no longer named."""
    for resends in FIGURES:
        for times in range(resends + 1):
            told, call = RESENDS_TOLD[times], 20 * times + 6
            waited = ("tick 20",) * times
            yield at(resends, "an Ok after resend %d" % times, ("push 9", *waited, ok(3), "tick 20"), told,
                     "%d 9 3 9, end up 0" % call)
            yield at(resends, "an Ok 19 ticks after resend %d" % times,
                     ("push 9", "tick %d" % (20 * times + 19), ok(3), "tick"), told,
                     "%d 9 3 9, end up 0" % (call + 19))
            yield at(resends, "an Advisory of another type 19 ticks after resend %d" % times,
                     ("push 9", "tick %d" % (20 * times + 19), advisory(3), "tick"), told,
                     "%d 10 3 9, end up 0" % (call + 19))
        yield at(resends, "an Ok after the end", ("push 9", "tick %d" % (20 * resends + 20), ok(3), unreadable(3)),
                 RESENDS_TOLD[resends], "%d 11 3 9" % (20 * resends + 25),
                 "%d 15 0 0, %d 15 0 0, end up 0" % (20 * resends + 26, 20 * resends + 27))


UNREADABLE = (
    at(0, "UnreadableMessage again and again", ("push 9",) + (unreadable(3),) * 5,
       "5 4 3 9, 6 10 3 9", listed("N 15 0 0", range(7, 11)), "end up 0"),
    at(1, "UnreadableMessage again and again", ("push 9",) + (unreadable(3),) * 5,
       "5 4 3 9, 6 5 3 9, 7 10 3 9", listed("N 15 0 0", range(8, 11)), "end up 0"),
    at(2, "UnreadableMessage again and again", ("push 9",) + (unreadable(3),) * 5,
       "5 4 3 9, 6 5 3 9, 7 5 3 9, 8 10 3 9, 9 15 0 0, 10 15 0 0, end up 0"),
    at(3, "UnreadableMessage again and again", ("push 9",) + (unreadable(3),) * 5,
       "5 4 3 9, 6 5 3 9, 7 5 3 9, 8 5 3 9, 9 10 3 9, 10 15 0 0, end up 0"),
    at(2, "all resends at once, then silence", ("push 9", unreadable(3), unreadable(3), "tick 19", "tick"),
       "5 4 3 9, 6 5 3 9, 7 5 3 9, 27 11 3 9, end up 0"),
    at(3, "all resends at once, then silence", ("push 9",) + (unreadable(3),) * 3 + ("tick 19", "tick"),
       "5 4 3 9, 6 5 3 9, 7 5 3 9, 8 5 3 9, 28 11 3 9, end up 0"),
    at(1, "UnreadableMessage after a resend by time", ("push 9", "tick 20", unreadable(3)),
       "5 4 3 9, 25 5 3 9, 26 10 3 9, end up 0"),
    at(2, "UnreadableMessage after a resend by time", ("push 9", "tick 20", unreadable(3), "tick 19", "tick"),
       "5 4 3 9, 25 5 3 9, 26 5 3 9, 46 11 3 9, end up 0"),
    at(3, "UnreadableMessage after a resend by time", ("push 9", "tick 20", unreadable(3), "tick 20", "tick 20"),
       "5 4 3 9, 25 5 3 9, 26 5 3 9, 46 5 3 9, 66 11 3 9, end up 0"),
    at(2, "UnreadableMessage, time, UnreadableMessage",
       ("push 9", "tick 5", unreadable(3), "tick 20", "tick 10", unreadable(3)),
       "5 4 3 9, 11 5 3 9, 31 5 3 9, 42 10 3 9, end up 0"),
    at(3, "UnreadableMessage, time, UnreadableMessage",
       ("push 9", "tick 5", unreadable(3), "tick 20", "tick 7", unreadable(3), "tick 19", "tick"),
       "5 4 3 9, 11 5 3 9, 31 5 3 9, 39 5 3 9, 59 11 3 9, end up 0"),
    at(3, "UnreadableMessage in the last tick each time", ("push 9",) + ("tick 19", unreadable(3)) * 4,
       "5 4 3 9, 25 5 3 9, 45 5 3 9, 65 5 3 9, 85 10 3 9, end up 0"),
    at(2, "UnreadableMessage in the last tick each time", ("push 9",) + ("tick 19", unreadable(3)) * 3,
       "5 4 3 9, 25 5 3 9, 45 5 3 9, 65 10 3 9, end up 0"),
    at(0, "UnreadableMessage in the last tick", ("push 9", "tick 19", unreadable(3), "tick"),
       "5 4 3 9, 25 10 3 9, end up 0"),
    at(3, "what does not name the push uses no sending up",
       ("push 9", unreadable(4), unreadable("03"), unreadable(), ok(""), "tick 80"),
       "5 4 3 9, 6 15 0 0, 7 15 0 0, 8 17 0 0, 9 15 0 0, 29 5 3 9, 49 5 3 9, 69 5 3 9, 89 11 3 9, end up 0"),
    at(3, "another type closes though resends are left",
       ("push 9", advisory(3), "push 8", unreadable(4), advisory(4, UNREADABLE_URI + " ")),
       "5 4 3 9, 6 10 3 9, 7 4 4 8, 8 5 4 8, 9 10 4 8, end up 0"),
    at(3, "an Ok after two UnreadableMessages", ("push 9", unreadable(3), "tick 19", unreadable(3), "tick 19", ok(3),
                                                 "tick 20"),
       "5 4 3 9, 6 5 3 9, 26 5 3 9, 46 9 3 9, end up 0"),
)

# Several pushes: each counts its own sendings, and keeps its number, its handle and its place.
SEVERAL = (
    at(2, "a resend keeps the order", ("push 1", "tick 5", "push 2", unreadable(3), "tick 20", "tick 20", "tick 20"),
       "5 4 3 1, 11 4 4 2, 12 5 3 1, 32 5 3 1, 32 5 4 2, 52 11 3 1, 52 5 4 2, 72 11 4 2, end up 0"),
    at(3, "an Advisory push among Responses", ("push 1", "advise 2", "push 3", "tick 20", "tick 60"),
       "5 4 3 1, 6 6 4 2, 7 4 5 3, 27 5 3 1, 27 11 4 2, 27 5 5 3, 47 5 3 1, 47 5 5 3, 67 5 3 1, 67 5 5 3",
       "87 11 3 1, 87 11 5 3, end up 0"),
    at(0, "an Advisory push among Responses", ("push 1", "advise 2", "push 3", "tick 19", "tick"),
       "5 4 3 1, 6 6 4 2, 7 4 5 3, 27 11 3 1, 27 11 4 2, 27 11 5 3, end up 0"),
    at(2, "each counts by itself",
       ("push 1", "tick 10", "push 2", unreadable(3), unreadable(3), "tick 20", unreadable(4), unreadable(4)),
       "5 4 3 1, 16 4 4 2, 17 5 3 1, 18 5 3 1, 38 11 3 1, 38 5 4 2, 39 5 4 2, 40 10 4 2, end up 0"),
    at(3, "the table moves and the counts stay",
       ("push 1", "push 2", unreadable(4), unreadable(4), ok(3), unreadable(4), unreadable(4), "push 3", "tick 80"),
       "5 4 3 1, 6 4 4 2, 7 5 4 2, 8 5 4 2, 9 9 3 1, 10 5 4 2, 11 10 4 2, 12 4 5 3, 32 5 5 3, 52 5 5 3, 72 5 5 3",
       "92 11 5 3, end up 0"),
    at(3, "a resend by time takes no number", ("push 9", "tick 60", "push 8"),
       "5 4 3 9, 25 5 3 9, 45 5 3 9, 65 5 3 9, 66 4 4 8, end up 2"),
    at(3, "a resend by UnreadableMessage takes no number", ("push 9",) + (unreadable(3),) * 3 + ("advise 8",),
       "5 4 3 9, 6 5 3 9, 7 5 3 9, 8 5 3 9, 9 6 4 8, end up 2"),
    at(3, "the greatest number and handle at every sending",
       ("last 4294967294", "push 4294967295", "push 0", "tick 80"),
       "5 4 4294967295 4294967295, 6 4 0 0",
       listed("N 5 4294967295 4294967295, N 5 0 0", (26, 46, 66)), "86 11 4294967295 4294967295, 86 11 0 0, end up 0"),
    at(3, "the number of a push sent four times is passed over, and free at its end",
       ("push 1", "tick 60", "last 2", "push 2", "tick 20", "last 2", "push 3"),
       "5 4 3 1, 25 5 3 1, 45 5 3 1, 65 5 3 1, 66 4 4 2, 86 11 3 1, 86 5 4 2, 87 4 3 3, end up 2"),
)

FULL = ("push 7",) * 32
FULL_TOLD = ", ".join("%d 4 %d 7" % (number + 2, number) for number in range(3, 35))


def of_all(form):
    """What is told of each of the 32."""
    return listed(form, range(3, 35))


FULL_TABLES = (
    at(3, "34 events of a stop", FULL + ("tick 60", "stop"), FULL_TOLD, of_all("56 5 N 7"), of_all("76 5 N 7"),
       of_all("96 5 N 7"), "97 19 35 0, 97 7 0 0", of_all("97 12 N 7"), "end stopped 0"),
    case("33 events of a tick, and 34 of one that ends the session, resends 3",
         ("interval 40",) + said(3) + TO_UP + FULL + ("tick 40", "tick 20"), UP_TOLD, FULL_TOLD, of_all("56 5 N 7"),
         of_all("76 5 N 7"), "76 3 35 0, 96 19 36 0, 96 7 0 0", of_all("96 12 N 7"), "end waiting 0"),
    case("32 closed in the tick of a heartbeat, resends 3",
         said(3) + ("interval 80",) + TO_UP + FULL + ("tick 80", "push 8"), UP_TOLD, FULL_TOLD, of_all("56 5 N 7"),
         of_all("76 5 N 7"), of_all("96 5 N 7"), of_all("116 11 N 7"), "116 3 35 0, 117 4 36 8, end up 1"),
    at(0, "32 closed at tick 20, and room at once", FULL + ("tick 20", "push 8"), FULL_TOLD, of_all("56 11 N 7"),
       "57 4 35 8, end up 1"),
    at(0, "UnreadableMessage makes room", FULL + (unreadable(3), "push 8"), FULL_TOLD,
       "37 10 3 7, 38 4 35 8, end up 32"),
    at(3, "UnreadableMessage makes no room while resends are left", FULL + (unreadable(3), "push 8"), FULL_TOLD,
       "37 5 3 7, 38 refused 7, end up 32"),
)


def what_is_never_sent_again():
    """Neither the opening nor a SessionOk, whatever the figure is."""
    for resends in FIGURES:
        yield case("a lost opening ends after 20 ticks, resends %d" % resends,
                   said(resends) + TO_OPENING + ("tick 19", "tick", "tick 300"), OPENING_TOLD,
                   "22 18 2 0, 22 19 3 0, 22 7 0 0, 322 1 0 0, end connecting 0")
        yield case("a SessionOk of Confirming ends after 20 ticks, resends %d" % resends,
                   said(resends) + TO_CONFIRMING + ("tick 19", "tick"), CONFIRMING_TOLD,
                   "23 19 3 0, 23 7 0 0, end waiting 0")
        yield case("UnreadableMessage for the SessionOk of Confirming, resends %d" % resends,
                   said(resends) + TO_CONFIRMING + (unreadable(2),), CONFIRMING_TOLD, "4 7 0 0, end waiting 0")
        yield at(resends, "a heartbeat ends after 20 ticks", ("tick 100", "tick 19", "tick"),
                 "104 3 3 0, 124 19 4 0, 124 7 0 0, end waiting 0")
        yield at(resends, "UnreadableMessage for a heartbeat", ("tick 100", unreadable(3), "tick 20"),
                 "104 3 3 0, 105 17 0 0, end up 0")


WITH_THE_SESSION = (
    case("a push outlives heartbeats that are answered, resends 3",
         ("interval 40",) + said(3) + TO_UP + ("push 1", "tick 40", ok(4), "tick 40"), UP_TOLD,
         "5 4 3 1, 25 5 3 1, 45 5 3 1, 45 3 4 0, 66 5 3 1, 86 11 3 1, 86 3 5 0, end up 0"),
    at(3, "the session's timer goes before a resend due", ("tick 80", "push 1", "tick 20", "tick 20"),
       "85 4 3 1, 105 5 3 1, 105 3 4 0, 125 19 5 0, 125 7 0 0, 125 12 3 1, end waiting 0"),
    at(3, "lost after resends", ("push 1", "push 2", "tick 20", unreadable(4), "lost"),
       "5 4 3 1, 6 4 4 2, 26 5 3 1, 26 5 4 2, 27 5 4 2, 28 12 3 1, 28 12 4 2, end waiting 0"),
    at(3, "stop after resends", ("push 1", "tick 40", "stop", "push 2", unreadable(3), "tick"),
       "5 4 3 1, 25 5 3 1, 45 5 3 1, 46 19 4 0, 46 7 0 0, 46 12 3 1", listed("N refused 5", (47, 48, 49)),
       "end stopped 0"),
)

# By the figure, what becomes of a Response in silence: the ticks since the call that pushed it, and the codes.
SILENCE = {
    0: ((0, 4), (20, 11)),
    1: ((0, 4), (20, 5), (40, 11)),
    2: ((0, 4), (20, 5), (40, 5), (60, 11)),
    3: ((0, 4), (20, 5), (40, 5), (60, 5), (80, 11)),
}


def silence(resends, call, number):
    return ", ".join("%d %d %d 9" % (call + ticks, code, number) for ticks, code in SILENCE[resends])


def kept_over_reconnections():
    """Each way out of a link or an attempt at one, and a Response in the next link."""
    for resends in FIGURES:
        for what, lines, told, call, number in SECOND_OPENINGS:
            yield case("a Response in silence after %s, resends %d" % (what, resends),
                       said(resends) + lines + ("tick 300", "connected", open_response(), ok(number), "push 9",
                                                "tick 99"), told,
                       "%d 3 %d 0, %d 8 0 0" % (call, number, call + 1), silence(resends, call + 2, number + 1),
                       "end up 0")


def beside_the_conduct():
    """The conduct does not fix the figure, nor the figure the conduct."""
    for resends in FIGURES:
        for settings in (("conduct old", "resends %d" % resends), ("resends %d" % resends, "conduct old")):
            yield case("%s, %s: a Response in silence" % settings,
                       settings + TO_OPENING + (REDUNDANT, ok(2), "push 9", "tick 99"), OPENING_TOLD,
                       "3 3 2 0, 4 8 0 0", silence(resends, 5, 3), "end up 0")
        for settings in (said(resends), said(resends) + ("conduct new",)):
            yield case("%s: RedundantSession does not open" % ", ".join(settings),
                       settings + TO_OPENING + (REDUNDANT,), OPENING_TOLD, "3 7 0 0, end waiting 0")
        yield case("conduct old, resends %d: UnreadableMessage for an Advisory push" % resends,
                   ("conduct old",) + said(resends) + TO_UP + ("advise 9", unreadable(3)), UP_TOLD,
                   "5 6 3 9, 6 10 3 9, end up 0")


RESENDS_BY_HAND = (TABLE_OF_TIMES + ONE_TICK_BEFORE + tuple(answers()) + UNREADABLE + SEVERAL + FULL_TABLES
                   + tuple(what_is_never_sent_again()) + WITH_THE_SESSION + tuple(kept_over_reconnections())
                   + tuple(beside_the_conduct()))
