"""Scripts about the two conducts of a session with the output due, from document 02 (M-110), the rulings on it, and
document 01 ("The session"), which the old conduct follows as it stands. Nothing was found by running anything.

The forms of the setting itself are in `replay_examples`. A setting is no call, so the calls of a script have the same
numbers under each conduct.
"""

from session_examples import CONFIRMING_TOLD, OPENING_TOLD, UP_TOLD, case, listed
from session_lines import (NEARLY_REDUNDANT, OPEN_REQUEST, REDUNDANT, REDUNDANT_OTHERWISE, TO_CONFIRMING, TO_OPENING,
                           TO_UP, advisory, ok, open_response, opened_with, unreadable)

NEW_CONDUCT = {"new by default": (), "new": ("conduct new",)}
OLD_CONDUCT = {"old": ("conduct old",)}
EACH_CONDUCT = {**NEW_CONDUCT, **OLD_CONDUCT}


def under(conducts, name, lines, *told):
    """The script under each of the conducts, which tell the same."""
    return tuple(case("%s, %s" % (name, conduct), settings + lines, *told) for conduct, settings in conducts.items())


def by_conduct(name, lines, told, new, old):
    """The script whose end the conducts tell apart."""
    return under(NEW_CONDUCT, name, lines, told, new) + under(OLD_CONDUCT, name, lines, told, old)


IN_OPENING = (
    *by_conduct("RedundantSession in Opening", TO_OPENING + (REDUNDANT,), OPENING_TOLD,
                "3 7 0 0, end waiting 0", "3 3 2 0, end confirming 0"),
    # No 19 goes out: it would take number 2.
    *under(NEW_CONDUCT, "RedundantSession, then exactly 300 ticks",
           TO_OPENING + (REDUNDANT, "lost", "tick 299", "connected", "tick", "connected"), OPENING_TOLD,
           "3 7 0 0, 4 refused 6, 304 refused 6, 305 1 0 0, 306 2 2 0, end opening 0"),
    *under(NEW_CONDUCT, "RedundantSession after 19 ticks", TO_OPENING + ("tick 19", REDUNDANT, "tick 299", "tick"),
           OPENING_TOLD, "22 7 0 0, 322 1 0 0, end connecting 0"),
    *under(EACH_CONDUCT, "RedundantSession after 20 ticks", TO_OPENING + ("tick 20", REDUNDANT, "tick 300"),
           OPENING_TOLD, "22 18 2 0, 22 19 3 0, 22 7 0 0, 23 refused 6, 323 1 0 0, end connecting 0"),
    *under(NEW_CONDUCT, "RedundantSession twice", TO_OPENING + (REDUNDANT, REDUNDANT, "tick 300"), OPENING_TOLD,
           "3 7 0 0, 4 refused 6, 304 1 0 0, end connecting 0"),
    *under(OLD_CONDUCT, "RedundantSession twice", TO_OPENING + (REDUNDANT, REDUNDANT, ok(2), REDUNDANT), OPENING_TOLD,
           "3 3 2 0, 4 14 0 0, 5 8 0 0, 6 14 0 0, end up 0"),
    *under(NEW_CONDUCT, "an answer after RedundantSession",
           TO_OPENING + (REDUNDANT, open_response(), ok(2), "unreadable 9", "push 1"), OPENING_TOLD, "3 7 0 0",
           listed("N refused 6", range(4, 8)), "end waiting 0"),
    *under(OLD_CONDUCT, "Confirming after RedundantSession has its own 20 ticks",
           TO_OPENING + ("tick 19", REDUNDANT, "tick 19", ok(2)), OPENING_TOLD, "22 3 2 0, 42 8 0 0, end up 0"),
    *under(OLD_CONDUCT, "Confirming after RedundantSession runs out", TO_OPENING + (REDUNDANT, "tick 20"), OPENING_TOLD,
           "3 3 2 0, 23 19 3 0, 23 7 0 0, end waiting 0"),
    *under(OLD_CONDUCT, "a heartbeat after RedundantSession", TO_OPENING + (REDUNDANT, ok(2), "tick 99", "tick"),
           OPENING_TOLD, "3 3 2 0, 4 8 0 0, 104 3 3 0, end up 0"),
)

ELSEWHERE = (
    *under(EACH_CONDUCT, "RedundantSession in Waiting", (REDUNDANT, "tick"),
           "1 refused 6, 2 1 0 0, end connecting 0"),
    *under(EACH_CONDUCT, "RedundantSession in Connecting", ("tick", REDUNDANT, "connected"),
           "1 1 0 0, 2 refused 6, 3 2 1 0, end opening 0"),
    *under(EACH_CONDUCT, "RedundantSession in Confirming", TO_CONFIRMING + (REDUNDANT, "tick 19", ok(2)),
           CONFIRMING_TOLD, "4 14 0 0, 24 8 0 0, end up 0"),
    *under(EACH_CONDUCT, "RedundantSession in Up", TO_UP + ("push 9", REDUNDANT, "advise 8", "tick 20", ok(3)), UP_TOLD,
           "5 4 3 9, 6 14 0 0, 7 6 4 8, 27 5 3 9, 27 11 4 8, 28 9 3 9, end up 0"),
    *under(EACH_CONDUCT, "RedundantSession while a heartbeat is open",
           TO_UP + ("tick 100", REDUNDANT, ok(3), "tick 20"), UP_TOLD, "104 3 3 0, 105 14 0 0, end up 0"),
    *under(EACH_CONDUCT, "RedundantSession in Stopped", TO_UP + ("stop", REDUNDANT), UP_TOLD,
           "5 19 3 0, 5 7 0 0, 6 refused 5, end stopped 0"),
)

# What no conduct changes: all statuses but the one, and the timer of Opening.
THE_REST_OF_OPENING = (
    *under(EACH_CONDUCT, "Ok opens", TO_UP, UP_TOLD, "end up 0"),
    *under(EACH_CONDUCT, "any other status does not",
           TO_OPENING + (open_response("VersionMismatch"), "tick 299", "tick"), OPENING_TOLD,
           "3 7 0 0, 303 1 0 0, end connecting 0"),
    *under(EACH_CONDUCT, "an empty status does not either", TO_OPENING + (opened_with(""),), OPENING_TOLD,
           "3 7 0 0, end waiting 0"),
    *under(EACH_CONDUCT, "no status is unreadable", TO_OPENING + ("message <SessionOpenResponse/>", "tick 19"),
           OPENING_TOLD, "3 16 0 13, end opening 0"),
    *under(EACH_CONDUCT, "a prefixed status is none", TO_OPENING + (REDUNDANT.replace("status=", "a:status="),),
           OPENING_TOLD, "3 16 0 13, end opening 0"),
    *under(EACH_CONDUCT, "RedundantSession not closed is unreadable", TO_OPENING + (REDUNDANT.replace("/>", ">"),),
           OPENING_TOLD, "3 16 0 9, end opening 0"),
    *under(EACH_CONDUCT, "RedundantSession on a request is out of place",
           TO_OPENING + (REDUNDANT.replace("Response", "Request"), OPEN_REQUEST), OPENING_TOLD,
           "3 14 0 0, 4 14 0 0, end opening 0"),
    *under(EACH_CONDUCT, "Opening runs out", TO_OPENING + ("tick 19", "tick"), OPENING_TOLD,
           "22 18 2 0, 22 19 3 0, 22 7 0 0, end waiting 0"),
)


def written_otherwise():
    for what, line in REDUNDANT_OTHERWISE.items():
        yield from by_conduct("RedundantSession written with " + what, TO_OPENING + (line,), OPENING_TOLD,
                              "3 7 0 0, end waiting 0", "3 3 2 0, end confirming 0")
    for status in NEARLY_REDUNDANT:
        yield from under(EACH_CONDUCT, "nearly RedundantSession: %r" % status, TO_OPENING + (opened_with(status),),
                         OPENING_TOLD, "3 7 0 0, end waiting 0")


# Each way out of a link or an attempt at one; then 300 ticks, and a second opening that is answered by
# RedundantSession. What is told up to the second connection, the number of the call that hands the answer in, and the
# number that the old conduct's SessionOk takes.
SECOND_OPENINGS = (
    ("link lost in Connecting", ("tick", "lost"), "1 1 0 0, 302 1 0 0, 303 2 1 0", 304, 2),
    ("link lost in Opening", TO_OPENING + ("lost",), OPENING_TOLD + ", 303 1 0 0, 304 2 2 0", 305, 3),
    ("another status", TO_OPENING + (open_response("VersionMismatch"),),
     OPENING_TOLD + ", 3 7 0 0, 303 1 0 0, 304 2 2 0", 305, 3),
    ("Opening ran out", TO_OPENING + ("tick 20",),
     OPENING_TOLD + ", 22 18 2 0, 22 19 3 0, 22 7 0 0, 322 1 0 0, 323 2 4 0", 324, 5),
    ("link lost in Confirming", TO_CONFIRMING + ("lost",), CONFIRMING_TOLD + ", 304 1 0 0, 305 2 3 0", 306, 4),
    ("an Advisory in Confirming", TO_CONFIRMING + (advisory(2),),
     CONFIRMING_TOLD + ", 4 7 0 0, 304 1 0 0, 305 2 3 0", 306, 4),
    ("Confirming ran out", TO_CONFIRMING + ("tick 20",),
     CONFIRMING_TOLD + ", 23 19 3 0, 23 7 0 0, 323 1 0 0, 324 2 4 0", 325, 5),
    ("link lost in Up", TO_UP + ("lost",), UP_TOLD + ", 305 1 0 0, 306 2 3 0", 307, 4),
    ("link lost with pushes open", TO_UP + ("push 1", "advise 2", "lost"),
     UP_TOLD + ", 5 4 3 1, 6 6 4 2, 7 12 3 1, 7 12 4 2, 307 1 0 0, 308 2 5 0", 309, 6),
    ("a heartbeat not answered", TO_UP + ("tick 120",),
     UP_TOLD + ", 104 3 3 0, 124 19 4 0, 124 7 0 0, 424 1 0 0, 425 2 5 0", 426, 6),
)


def second_openings():
    for what, lines, told, call, number in SECOND_OPENINGS:
        yield from by_conduct("RedundantSession at the second opening after %s" % what,
                              lines + ("tick 300", "connected", REDUNDANT), told,
                              "%d 7 0 0, end waiting 0" % call, "%d 3 %d 0, end confirming 0" % (call, number))


AGAIN = ("tick 300", "connected", REDUNDANT)

ROUNDS = (
    *under(NEW_CONDUCT, "RedundantSession round after round",
           TO_OPENING + (REDUNDANT,) + AGAIN * 2 + ("tick 300", "connected", open_response(), ok(5)), OPENING_TOLD,
           "3 7 0 0, 303 1 0 0, 304 2 2 0, 305 7 0 0, 605 1 0 0, 606 2 3 0, 607 7 0 0, 907 1 0 0, 908 2 4 0",
           "909 3 5 0, 910 8 0 0, end up 0"),
    *under(OLD_CONDUCT, "RedundantSession round after round",
           TO_OPENING + (REDUNDANT, "lost") + AGAIN + (ok(4), "lost") + AGAIN + (unreadable(6),) + AGAIN + ("tick 20",)
           + AGAIN, OPENING_TOLD,
           "3 3 2 0, 304 1 0 0, 305 2 3 0, 306 3 4 0, 307 8 0 0, 608 1 0 0, 609 2 5 0, 610 3 6 0, 611 7 0 0",
           "911 1 0 0, 912 2 7 0, 913 3 8 0, 933 19 9 0, 933 7 0 0, 1233 1 0 0, 1234 2 10 0, 1235 3 11 0",
           "end confirming 0"),
    *under(NEW_CONDUCT, "pushes after a RedundantSession",
           TO_OPENING + (REDUNDANT, "tick 300", "connected", open_response(), ok(3), "push 1", "advise 2", REDUNDANT,
                         "tick 20", ok(4)), OPENING_TOLD,
           "3 7 0 0, 303 1 0 0, 304 2 2 0, 305 3 3 0, 306 8 0 0, 307 4 4 1, 308 6 5 2, 309 14 0 0, 329 5 4 1",
           "329 11 5 2, 330 9 4 1, end up 0"),
    *under(OLD_CONDUCT, "pushes after a RedundantSession",
           TO_OPENING + (REDUNDANT, ok(2), "push 1", "advise 2", REDUNDANT, "tick 20", ok(3)), OPENING_TOLD,
           "3 3 2 0, 4 8 0 0, 5 4 3 1, 6 6 4 2, 7 14 0 0, 27 5 3 1, 27 11 4 2, 28 9 3 1, end up 0"),
)

STOPS_AND_NUMBERS = (
    *under(NEW_CONDUCT, "stop after a RedundantSession", TO_OPENING + (REDUNDANT, "stop", REDUNDANT), OPENING_TOLD,
           "3 7 0 0, 5 refused 5, end stopped 0"),
    *under(OLD_CONDUCT, "stop after a RedundantSession", TO_OPENING + (REDUNDANT, "stop", REDUNDANT), OPENING_TOLD,
           "3 3 2 0, 4 19 3 0, 4 7 0 0, 5 refused 5, end stopped 0"),
    *under(EACH_CONDUCT, "stop in Opening, then RedundantSession", TO_OPENING + ("stop", REDUNDANT), OPENING_TOLD,
           "3 19 2 0, 3 7 0 0, 4 refused 5, end stopped 0"),
    *under(NEW_CONDUCT, "last leaves the conduct",
           TO_OPENING + ("last 7", REDUNDANT, "last 9", "tick 300", "connected", "last 4294967295", REDUNDANT,
                         "tick 300", "connected"), OPENING_TOLD,
           "3 7 0 0, 303 1 0 0, 304 2 10 0, 305 7 0 0, 605 1 0 0, 606 2 0 0, end opening 0"),
    *under(OLD_CONDUCT, "last leaves the conduct",
           TO_OPENING + ("last 7", REDUNDANT, "lost", "tick 300", "connected", "last 4294967295", REDUNDANT, ok(0)),
           OPENING_TOLD, "3 3 8 0, 304 1 0 0, 305 2 9 0, 306 3 0 0, 307 8 0 0, end up 0"),
    *by_conduct("last before all calls leaves the conduct", ("last 5",) + TO_OPENING + (REDUNDANT,),
                "1 1 0 0, 2 2 6 0", "3 7 0 0, end waiting 0", "3 3 7 0, end confirming 0"),
)

CONDUCT_BY_HAND = (IN_OPENING + ELSEWHERE + THE_REST_OF_OPENING + tuple(written_otherwise())
                   + tuple(second_openings()) + ROUNDS + STOPS_AND_NUMBERS)
