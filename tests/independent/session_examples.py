"""Scripts about what the session does with the output due, from document 01 ("The session", "Numbers of refusal") and
the rulings on the session. Nothing was found by running anything. `conduct_examples` has those about RedundantSession,
which the two conducts of document 02 (M-110) tell apart.

What is told stands on one line, parted by commas. The calls of a script are numbered from 1, so that the ones after
`TO_UP` have the numbers from 5 on; at that time one tick has passed, and the last number taken is 2, the SessionOk's.
"""

from reader_examples_refused import attributes
from reader_messages import UNREADABLE_URI
from session_lines import (OPEN_REQUEST, REQUEST, RESPONSE, TO_CONFIRMING, TO_OPENING, TO_UP, advisory, ok,
                           open_response, script_of, session_ok, unreadable)

OPENING_TOLD = "1 1 0 0, 2 2 1 0"
CONFIRMING_TOLD = OPENING_TOLD + ", 3 3 2 0"
UP_TOLD = CONFIRMING_TOLD + ", 4 8 0 0"


def output_of(told):
    return "".join(line.strip() + "\n" for line in told.split(",")).encode("ascii")


def listed(form, numbers):
    """The form once for each number, as a list of what is told."""
    return ", ".join(form.replace("N", str(number)) for number in numbers)


def case(name, lines, *told):
    return name, script_of(lines), output_of(", ".join(told))


def in_opening(name, lines, *told):
    return case(name, TO_OPENING + lines, OPENING_TOLD, *told)


def in_confirming(name, lines, *told):
    return case(name, TO_CONFIRMING + lines, CONFIRMING_TOLD, *told)


def in_up(name, lines, *told):
    return case(name, TO_UP + lines, UP_TOLD, *told)


def up_every(interval, name, lines, *told):
    """In Up, with another interval than 100."""
    return case(name, ("interval %d" % interval,) + TO_UP + lines, UP_TOLD, *told)


COMING_UP = (
    case("fresh", (), "end waiting 0"),
    case("the first tick connects", ("tick",), "1 1 0 0, end connecting 0"),
    case("first number", TO_OPENING, "1 1 0 0, 2 2 1 0, end opening 0"),
    case("up", TO_UP, "1 1 0 0, 2 2 1 0, 3 3 2 0, 4 8 0 0, end up 0"),
    case("ticks in Connecting do nothing", ("tick 1000", "connected"), "1 1 0 0, 1001 2 1 0, end opening 0"),
    case("a million ticks", ("tick 1000000", "connected"), "1 1 0 0, 1000001 2 1 0, end opening 0"),
    in_opening("19 ticks of Opening", ("tick 19",), "end opening 0"),
    in_opening("20 ticks of Opening", ("tick 20",), "22 18 2 0, 22 19 3 0, 22 7 0 0, end waiting 0"),
    in_opening("Waiting 300 after Opening ran out", ("tick 20", "tick 299", "lost", "tick", "connected"),
               "22 18 2 0, 22 19 3 0, 22 7 0 0, 322 refused 6, 323 1 0 0, 324 2 4 0, end opening 0"),
    in_opening("Opening answered after 19 ticks", ("tick 19", open_response()), "22 3 2 0, end confirming 0"),
    in_opening("Confirming has its own 20 ticks", ("tick 19", open_response(), "tick 19", ok(2)),
               "22 3 2 0, 42 8 0 0, end up 0"),
    in_opening("another status", (open_response("VersionMismatch"), "lost", "tick 299", "tick"),
               "3 7 0 0, 4 refused 6, 304 1 0 0, end connecting 0"),
    in_opening("a status that is only nearly Ok", (open_response("ok"),), "3 7 0 0, end waiting 0"),
    in_opening("an empty status", ('message <SessionOpenResponse status=""/>',), "3 7 0 0, end waiting 0"),
    in_opening("no status", ("message <SessionOpenResponse/>",), "3 16 0 13, end opening 0"),
    in_opening("every kind in Opening",
               (OPEN_REQUEST, session_ok(1), ok(1), advisory(1), unreadable(), REQUEST, RESPONSE, open_response()),
               listed("N 14 0 0", range(3, 10)), "10 3 2 0, end confirming 0"),
    in_confirming("19 ticks of Confirming", ("tick 19",), "end confirming 0"),
    in_confirming("20 ticks of Confirming", ("tick 20", "tick 300"),
                  "23 19 3 0, 23 7 0 0, 323 1 0 0, end connecting 0"),
    in_confirming("Advisory for the SessionOk in Confirming", (advisory(2), "lost", "tick 299", "tick", "connected"),
                  "4 7 0 0, 5 refused 6, 305 1 0 0, 306 2 3 0, end opening 0"),
    in_confirming("UnreadableMessage for the SessionOk in Confirming", (unreadable(2),), "4 7 0 0, end waiting 0"),
    in_confirming("every kind in Confirming",
                  (OPEN_REQUEST, open_response(), session_ok(2), REQUEST, RESPONSE, ok(1), ok(3), ok("02"), advisory(1),
                   unreadable("02"), advisory(""), advisory(), unreadable(), "tick 19", ok(2)),
                  listed("N 14 0 0", range(4, 9)), listed("N 15 0 0", range(9, 15)), "15 17 0 0, 16 17 0 0",
                  "36 8 0 0, end up 0"),
    in_up("every kind in Up",
          (OPEN_REQUEST, open_response(), session_ok(2), RESPONSE, REQUEST, ok(2), ok(3), advisory(2), unreadable(""),
           advisory(), unreadable()),
          listed("N 14 0 0", range(5, 9)), "9 13 0 0", listed("N 15 0 0", range(10, 14)), "14 17 0 0, 15 17 0 0",
          "end up 0"),
)

HEARTBEAT = (
    in_up("a heartbeat after 100 ticks", ("tick 99", "tick"), "104 3 3 0, end up 0"),
    in_up("an Ok closes the heartbeat with no event", ("tick 100", ok(3), ok(3), "tick 20"),
          "104 3 3 0, 106 15 0 0, end up 0"),
    in_up("the Ok does not move the next heartbeat", ("tick 100", "tick 10", ok(3), "tick 89", "tick"),
          "104 3 3 0, 205 3 4 0, end up 0"),
    in_up("nor does other traffic", ("tick 50", REQUEST, "push 1", ok(3), "tick 50"),
          "55 13 0 0, 56 4 3 1, 57 9 3 1, 107 3 4 0, end up 0"),
    in_up("a heartbeat answered in its 19th tick", ("tick 100", "tick 19", ok(3), "tick"), "104 3 3 0, end up 0"),
    in_up("a heartbeat not answered", ("tick 100", "tick 19", "tick", "lost", "tick 299", "tick"),
          "104 3 3 0, 124 19 4 0, 124 7 0 0, 125 refused 6, 425 1 0 0, end connecting 0"),
    in_up("an Advisory closes the heartbeat", ("tick 100", advisory(3), "tick 99", "tick"),
          "104 3 3 0, 105 17 0 0, 205 3 4 0, end up 0"),
    in_up("an UnreadableMessage closes the heartbeat", ("tick 100", unreadable(3), ok(3)),
          "104 3 3 0, 105 17 0 0, 106 15 0 0, end up 0"),
    in_up("an Advisory that names nothing does not", ("tick 100", advisory(), "tick 20"),
          "104 3 3 0, 105 17 0 0, 125 19 4 0, 125 7 0 0, end waiting 0"),
    case("interval 21, from the SessionOk of Confirming",
         ("interval 21",) + TO_CONFIRMING + ("tick 19", ok(2), "tick 2"), CONFIRMING_TOLD,
         "23 8 0 0, 25 3 3 0, end up 0"),
    up_every(21, "interval 21, each answered late", ("tick 21", "tick 19", ok(3), "tick 2", ok(4), "tick 21"),
             "25 3 3 0, 47 3 4 0, 69 3 5 0, end up 0"),
    up_every(6000, "interval 6000", ("tick 5999", "tick"), "6004 3 3 0, end up 0"),
    up_every(40, "a heartbeat after the pushes due in its tick", ("tick 20", "push 1", "advise 2", "tick 20"),
             "25 4 3 1, 26 6 4 2, 46 5 3 1, 46 11 4 2, 46 3 5 0, end up 1"),
    up_every(40, "a heartbeat after a Response closed in its tick", ("push 1", "tick 40"),
             "5 4 3 1, 25 5 3 1, 45 11 3 1, 45 3 4 0, end up 0"),
)

PUSHES = (
    in_up("an Advisory push after 19 ticks", ("advise 9", "tick 19"), "5 6 3 9, end up 1"),
    in_up("an Advisory push is closed at tick 20", ("advise 9", "tick 20"), "5 6 3 9, 25 11 3 9, end up 0"),
    in_up("a Response, UnreadableMessage after tick 5, then silence: closed at tick 25",
          ("push 9", "tick 5", unreadable(3), "tick 19", "tick"), "5 4 3 9, 11 5 3 9, 31 11 3 9, end up 0"),
    in_up("a Response is sent again at tick 20 and closed at tick 40", ("push 9", "tick 39", "tick"),
          "5 4 3 9, 25 5 3 9, 45 11 3 9, end up 0"),
    in_up("a Response after 39 ticks", ("push 9", "tick 39"), "5 4 3 9, 25 5 3 9, end up 1"),
    in_up("an Ok for a Response", ("push 9", ok(3), ok(3)), "5 4 3 9, 6 9 3 9, 7 15 0 0, end up 0"),
    in_up("an Ok for an Advisory push", ("advise 9", "tick 19", ok(3), "tick"), "5 6 3 9, 25 9 3 9, end up 0"),
    in_up("an Ok for a Response sent twice", ("push 9", "tick 39", ok(3), "tick"),
          "5 4 3 9, 25 5 3 9, 45 9 3 9, end up 0"),
    in_up("an Advisory for a Response", ("push 9", advisory(3)), "5 4 3 9, 6 10 3 9, end up 0"),
    in_up("an Advisory for an Advisory push", ("advise 9", advisory(3)), "5 6 3 9, 6 10 3 9, end up 0"),
    in_up("UnreadableMessage does not send an Advisory push again", ("advise 9", "tick 5", unreadable(3)),
          "5 6 3 9, 11 10 3 9, end up 0"),
    in_up("UnreadableMessage twice", ("push 9", unreadable(3), unreadable(3)), "5 4 3 9, 6 5 3 9, 7 10 3 9, end up 0"),
    in_up("UnreadableMessage after the resend by time", ("push 9", "tick 20", unreadable(3)),
          "5 4 3 9, 25 5 3 9, 26 10 3 9, end up 0"),
    in_up("UnreadableMessage after 19 ticks", ("push 9", "tick 19", unreadable(3), "tick 19", "tick"),
          "5 4 3 9, 25 5 3 9, 45 11 3 9, end up 0"),
    in_up("white space round the type makes it other",
          ("push 9", advisory(3, " " + UNREADABLE_URI), "push 8", unreadable(4)),
          "5 4 3 9, 6 10 3 9, 7 4 4 8, 8 5 4 8, end up 1"),
    in_up("an Ok names one push and not the oldest", ("push 1", "push 2", ok(4)),
          "5 4 3 1, 6 4 4 2, 7 9 4 2, end up 1"),
    in_up("texts that name nothing",
          ("push 9", ok("03"), ok("3 "), ok(""), ok("+3"), ok("4294967299"), ok("3.0"), advisory("03"),
           unreadable(" 3"), ok("&#51;")),
          "5 4 3 9", listed("N 15 0 0", range(6, 14)), "14 9 3 9, end up 0"),
    in_up("a Response that arrives closes nothing", ("push 9", RESPONSE), "5 4 3 9, 6 14 0 0, end up 1"),
    in_up("an Advisory without inRelationTo closes nothing", ("push 9", advisory(), unreadable()),
          "5 4 3 9, 6 17 0 0, 7 17 0 0, end up 1"),
    in_up("the table moves and no push starts again",
          ("push 1", "tick 3", "advise 2", "tick 7", ok(3), "tick 12", "tick"),
          "5 4 3 1, 9 6 4 2, 17 9 3 1, 30 11 4 2, end up 0"),
    in_up("a resend keeps the order", ("push 1", "tick 5", "push 2", unreadable(3), "tick 20"),
          "5 4 3 1, 11 4 4 2, 12 5 3 1, 32 11 3 1, 32 5 4 2, end up 1"),
    in_up("pushes due in one tick", ("push 1", "advise 2", "push 3", "tick 20", "tick 20"),
          "5 4 3 1, 6 6 4 2, 7 4 5 3, 27 5 3 1, 27 11 4 2, 27 5 5 3, 47 11 3 1, 47 11 5 3, end up 0"),
    in_up("any handles", ("push 0", "advise 4294967295", "push 0", ok(4), ok(5), advisory(3)),
          "5 4 3 0, 6 6 4 4294967295, 7 4 5 0, 8 9 4 4294967295, 9 9 5 0, 10 10 3 0, end up 0"),
    in_up("32 pushes open", ("push 7",) * 32 + ("push 7", "advise 7", ok(10), "advise 8", "push 7", "advise 7"),
          ", ".join("%d 4 %d 7" % (number + 2, number) for number in range(3, 35)),
          "37 refused 7, 38 refused 7, 39 9 10 7, 40 6 35 8, 41 refused 7, 42 refused 7, end up 32"),
    in_up("32 pushes closed in one tick, and room at once", ("advise 7",) * 32 + ("tick 20", "push 1"),
          ", ".join("%d 6 %d 7" % (number + 2, number) for number in range(3, 35)), listed("56 11 N 7", range(3, 35)),
          "57 4 35 1, end up 1"),
)

ENDINGS = (
    case("stop in Waiting", ("stop", "stop"), "2 refused 5, end stopped 0"),
    case("stop in Connecting", ("tick", "stop", "tick 2"), "1 1 0 0, 3 refused 5, 4 refused 5, end stopped 0"),
    in_opening("stop in Opening", ("stop", "lost"), "3 19 2 0, 3 7 0 0, 4 refused 5, end stopped 0"),
    in_confirming("stop in Confirming", ("stop",), "4 19 3 0, 4 7 0 0, end stopped 0"),
    in_up("stop in Up", ("stop",), "5 19 3 0, 5 7 0 0, end stopped 0"),
    in_up("stop with pushes open", ("push 1", "advise 2", "push 3", ok(4), "stop", "connected"),
          "5 4 3 1, 6 6 4 2, 7 4 5 3, 8 9 4 2, 9 19 6 0, 9 7 0 0, 9 12 3 1, 9 12 5 3, 10 refused 5, end stopped 0"),
    in_up("stop with 32 pushes open", ("push 7",) * 32 + ("stop",),
          ", ".join("%d 4 %d 7" % (number + 2, number) for number in range(3, 35)), "37 19 35 0, 37 7 0 0",
          listed("37 12 N 7", range(3, 35)), "end stopped 0"),
    case("lost in Waiting", ("lost", "tick"), "1 refused 6, 2 1 0 0, end connecting 0"),
    case("lost in Connecting", ("tick", "lost", "lost", "tick 299", "tick"),
         "1 1 0 0, 3 refused 6, 303 1 0 0, end connecting 0"),
    in_opening("lost in Opening", ("lost", "tick 299", "tick", "connected"), "303 1 0 0, 304 2 2 0, end opening 0"),
    in_confirming("lost in Confirming, and the numbers go on",
                  ("lost", ok(2), "tick 300", "connected", open_response(), ok(2), ok(4)),
                  "5 refused 6, 305 1 0 0, 306 2 3 0, 307 3 4 0, 308 15 0 0, 309 8 0 0, end up 0"),
    in_up("lost in Up", ("lost", "tick 299", "tick"), "305 1 0 0, end connecting 0"),
    in_up("lost with pushes open", ("push 1", "advise 2", "lost", "push 3", ok(3), "tick 300", "connected"),
          "5 4 3 1, 6 6 4 2, 7 12 3 1, 7 12 4 2, 8 refused 6, 9 refused 6, 309 1 0 0, 310 2 5 0, end opening 0"),
    in_up("lost in order of acceptance and not of numbers", ("last 4294967294", "push 1", "push 2", "lost"),
          "5 4 4294967295 1, 6 4 0 2, 7 12 4294967295 1, 7 12 0 2, end waiting 0"),
    in_up("the session's timer goes before pushes due", ("tick 100", "push 1", "advise 2", "tick 20"),
          "104 3 3 0, 105 4 4 1, 106 6 5 2, 126 19 6 0, 126 7 0 0, 126 12 4 1, 126 12 5 2, end waiting 0"),
    in_up("a new link has its own heartbeat",
          ("tick 90", "lost", "tick 300", "connected", open_response(), ok(4), "tick 99", "tick"),
          "395 1 0 0, 396 2 3 0, 397 3 4 0, 398 8 0 0, 498 3 5 0, end up 0"),
    in_up("a heartbeat open at the loss is gone", ("tick 100", "lost", "tick 300", "connected", ok(3), open_response(),
                                                    ok(3), "tick 19", ok(5), "tick 20"),
          "104 3 3 0, 405 1 0 0, 406 2 4 0, 407 14 0 0, 408 3 5 0, 409 15 0 0, 429 8 0 0, end up 0"),
)

NUMBERS = (
    in_up("after 4294967295 comes 0", ("last 4294967293", "push 1", "push 2", "push 3", "advise 4", "push 5", ok(0),
                                       unreadable(4294967295)),
          "5 4 4294967294 1, 6 4 4294967295 2, 7 4 0 3, 8 6 1 4, 9 4 2 5, 10 9 0 3, 11 5 4294967295 2, end up 4"),
    case("0 as first number", ("last 4294967295",) + TO_OPENING + (open_response(), ok("00"), ok(1)),
         "1 1 0 0, 2 2 0 0, 3 3 1 0, 4 15 0 0, 5 8 0 0, end up 0"),
    case("0 as the number of the SessionOk", TO_OPENING + ("last 4294967295", open_response(), ok(""), ok(0)),
         OPENING_TOLD, "3 3 0 0, 4 15 0 0, 5 8 0 0, end up 0"),
    in_opening("18 and 19 about the wrap", ("last 4294967294", "tick 20"),
               "22 18 4294967295 0, 22 19 0 0, 22 7 0 0, end waiting 0"),
    in_opening("2 holds no number", ("last 0", open_response(), ok(1)), "3 3 1 0, 4 8 0 0, end up 0"),
    in_opening("2, 18 and 19 hold no number", ("last 0", "tick 20", "last 0", "tick 300", "connected"),
               "22 18 1 0, 22 19 2 0, 22 7 0 0, 322 1 0 0, 323 2 1 0, end opening 0"),
    in_up("open pushes' numbers are passed over", ("push 1", "advise 2", "last 2", "push 3"),
          "5 4 3 1, 6 6 4 2, 7 4 5 3, end up 3"),
    in_up("passing over about the wrap", ("last 4294967294", "push 1", "push 2", "last 4294967294", "push 3"),
          "5 4 4294967295 1, 6 4 0 2, 7 4 1 3, end up 3"),
    in_up("the open SessionOk's number is passed over", ("tick 100", "last 2", "push 1", ok(3), "last 2", "push 2"),
          "104 3 3 0, 105 4 4 1, 107 4 3 2, end up 2"),
    in_up("an answered SessionOk's number is free", ("last 1", "push 1"), "5 4 2 1, end up 1"),
    in_up("a closed push's number is free at once", ("push 1", ok(3), "last 2", "advise 2"),
          "5 4 3 1, 6 9 3 1, 7 6 3 2, end up 1"),
    in_up("a lost push's number is free at once", ("push 1", "lost", "last 2", "tick 300", "connected"),
          "5 4 3 1, 6 12 3 1, 306 1 0 0, 307 2 3 0, end opening 0"),
    up_every(40, "a push closed in the same call is still passed over", ("tick 20", "advise 1", "last 2", "tick 20"),
             "25 6 3 1, 45 11 3 1, 45 3 4 0, end up 0"),
    in_up("an ending passes over what it closes", ("tick 100", "push 1", "last 2", "tick 20"),
          "104 3 3 0, 105 4 4 1, 125 19 5 0, 125 7 0 0, 125 12 4 1, end waiting 0"),
    in_up("stop passes over what it closes", ("push 1", "last 2", "stop"),
          "5 4 3 1, 6 19 4 0, 6 7 0 0, 6 12 3 1, end stopped 0"),
    in_confirming("19 passes over the SessionOk of Confirming", ("last 1", "tick 20"),
                  "23 19 3 0, 23 7 0 0, end waiting 0"),
    in_confirming("stop passes over the SessionOk of Confirming", ("last 1", "stop"),
                  "4 19 3 0, 4 7 0 0, end stopped 0"),
    in_up("a heartbeat passes over pushes", ("tick 90", "push 1", "push 2", "last 2", "tick 10"),
          "95 4 3 1, 96 4 4 2, 106 3 5 0, end up 2"),
    in_up("a refused push takes no number", ("push 7",) * 32 + ("push 7", ok(3), "push 8"),
          ", ".join("%d 4 %d 7" % (number + 2, number) for number in range(3, 35)),
          "37 refused 7, 38 9 3 7, 39 4 35 8, end up 32"),
)

NOT_FITTING = ("connected", "push 1", "advise 1")
FOR_A_LINK = (ok(1), "message x", "unreadable 9", "unreadable 7")

REFUSED = (
    case("refused in Waiting", NOT_FITTING + ("lost",) + FOR_A_LINK, listed("N refused 6", range(1, 9)),
         "end waiting 0"),
    case("refused in Connecting", ("tick",) + NOT_FITTING[1:] + FOR_A_LINK, "1 1 0 0",
         listed("N refused 6", range(2, 8)), "end connecting 0"),
    in_opening("refused in Opening", NOT_FITTING, listed("N refused 6", range(3, 6)), "end opening 0"),
    in_confirming("refused in Confirming", NOT_FITTING, listed("N refused 6", range(4, 7)), "end confirming 0"),
    in_up("refused in Up", ("connected", "unreadable 7"), "5 refused 6, 6 refused 6, end up 0"),
    case("refused when stopped", ("stop",) + NOT_FITTING + FOR_A_LINK + ("tick", "tick 3", "lost", "stop", "last 3"),
         listed("N refused 5", range(2, 15)), "end stopped 0"),
    in_opening("refusals handed in in Opening", ("unreadable 8", "unreadable 9", "unreadable 14", "unreadable 15"),
               "3 16 0 8, 4 16 0 9, 5 16 0 14, 6 refused 6, end opening 0"),
    in_confirming("refusals handed in in Confirming",
                  ("unreadable 7", "unreadable 8", "unreadable 14", "unreadable 15"),
                  "4 refused 6, 5 16 0 8, 6 16 0 14, 7 refused 6, end confirming 0"),
    in_up("refusals handed in in Up", tuple("unreadable %d" % number for number in range(8, 15)),
          ", ".join("%d 16 0 %d" % (number - 3, number) for number in range(8, 15)), "end up 0"),
    in_up("numbers that no reader gives",
          tuple("unreadable %d" % number for number in (0, 1, 3, 7, 15, 26, 27, 264, 65545, 4294967295)),
          listed("N refused 6", range(5, 15)), "end up 0"),
    in_up("messages that are refused by the reader",
          ("message ", "message <a/>", "message <!DOCTYPE", "message " + "<a>" * 33,
           "message <a" + attributes(17).decode("ascii") + "/>", "message <" + "n" * 65, "message <Ok/>", "message  ",
           "message \0", "message \xff"),
          "5 16 0 9, 6 16 0 13, 7 16 0 12, 8 16 0 10, 9 16 0 11, 10 16 0 14, 11 16 0 13, 12 16 0 9, 13 16 0 9",
          "14 16 0 9, end up 0"),
    in_up("what is unreadable closes nothing", ("push 1", "unreadable 9", "message <Ok inResponseTo='3'>", "tick 20"),
          "5 4 3 1, 6 16 0 9, 7 16 0 9, 27 5 3 1, end up 1"),
)

SESSION_BY_HAND = COMING_UP + HEARTBEAT + PUSHES + ENDINGS + NUMBERS + REFUSED
