"""The moves of the session, each with the scripts that try it on the program `replay`."""
from typing import NamedTuple, Tuple

NAMES = {
    1: "connect", 2: "send SessionOpenRequest", 3: "send SessionOk", 4: "send Response", 5: "send Response again", 6: "send Advisory", 7: "disconnect",
    8: "up", 9: "closed acknowledged", 10: "closed advised", 11: "closed timed out", 12: "closed lost", 13: "Request arrived", 14: "out of place",
    15: "unmatched", 16: "unreadable", 17: "Advisory arrived", 18: "send Alert", 19: "send GoingOutOfService",
}
GIVEN = range(8, 15)  # the reader's refusals
LOST = 12  # said of each open push where Up is left

STATES = ["Waiting", "Connecting", "Opening", "Confirming", "Up", "Stopped"]
MORE, SPENT, ADVISORY, OPEN, CLOSED = "Response, a sending left", "Response, none left", "Advisory, sent", "any open push", "closed"
NONE, AWAITED = "no SessionOk open", "SessionOk open"
OLD = "Opening in the old conduct"
SETTINGS = ("interval ", "conduct ", "resends ")


def status(word):
    return 'message <SessionOpenResponse status="urn:nena-org:dtc:aqstcp:status:%s"/>' % word


def ok(number):
    return 'message <Ok inResponseTo="%d"/>' % number


def advisory(number, word="Alert"):
    about = "" if number is None else ' inRelationTo="%d"' % number
    kind = "appl-x:UnreadableMessage" if word == "UnreadableMessage" else word
    return "message <Advisory><Advisory%s><AdvisoryType>urn:nena-org:dtc:aqs:notif:advisory:%s</AdvisoryType></Advisory></Advisory>" % (about, kind)


REQUEST = 'message <Request><QueryRequest ID="881"/></Request>'
RESPONSE = "message <Response><QueryResponse/></Response>"
SESSION_OK = 'message <SessionOk ID="5"/>'

# The calls that lead to a place, with the pushes that are open there. SessionOpenRequest has number 1, SessionOk 2, what comes next 3.
OPENING = ["tick", "connected"]
CONFIRMING = OPENING + [status("Ok")]
UP = CONFIRMING + [ok(2)]
STARTS = {
    "Waiting": ([], 0), "Waiting 300": (["tick", "lost"], 0), "Connecting": (["tick"], 0), "Opening": (OPENING, 0), OLD: (["conduct old"] + OPENING, 0),
    "Confirming": (CONFIRMING, 0),
    "Up": (UP, 0), "Stopped": (["stop"], 0), "pushes": (UP + ["push 7", "advise 8"], 2), AWAITED: (UP + ["tick 100"], 0),
    "both": (UP + ["tick 100", "push 7"], 1),
    MORE: (UP + ["push 7"], 1), ADVISORY: (UP + ["advise 8"], 1), "again by time": (UP + ["push 7", "tick 20"], 1),
    "again by Advisory": (UP + ["push 7", "tick 5", advisory(3, "UnreadableMessage")], 1),
    "no resends": (["resends 0"] + UP + ["push 7"], 1), "three resends": (["resends 3"] + UP + ["push 7"], 1),
    "the third of three": (["resends 3"] + UP + ["push 7", "tick 60"], 1), "the second of three": (["resends 3"] + UP + ["push 7", "tick 40"], 1),
}
NOT_YET_SPENT = (MORE, "three resends", "the second of three")
ALL_SENT = ("again by time", "again by Advisory", "no resends", "the third of three")


class Move(NamedTuple):
    """A way from one place to another: what is called, what is said, and the scripts that go it, each behind a start."""
    name: str
    first: str
    last: str
    call: str
    events: Tuple[int, ...]
    trials: Tuple[Tuple[str, Tuple[str, ...]], ...]
    leaves_up: bool = False


def move(name, first, last, call, events, *trials, leaves_up=False):
    return Move(name, first, last, call, events, tuple((start, tuple(lines)) for start, lines in trials), leaves_up)


MOVES = [
    move("connect", "Waiting", "Connecting", "last tick of Waiting", (1,), ("Waiting", ["tick"]), ("Waiting 300", ["tick 300"])),
    move("connected", "Connecting", "Opening", "connected", (2,), ("Connecting", ["connected"]), ("Connecting", ["tick 1000", "connected"])),
    move("answered", "Opening", "Confirming", "SessionOpenResponse, status Ok, in the old conduct RedundantSession too", (3,),
         ("Opening", [status("Ok")]), (OLD, ["tick 19", status("Ok")]), (OLD, [status("RedundantSession")])),
    move("confirmed", "Confirming", "Up", "Ok naming the SessionOk", (8,), ("Confirming", [ok(2)]), ("Confirming", ["tick 19", ok(2)])),
    move("connecting-lost", "Connecting", "Waiting", "lost", (), ("Connecting", ["lost"])),
    move("opening-lost", "Opening", "Waiting", "lost", (), ("Opening", ["lost"])),
    move("opening-refused", "Opening", "Waiting", "SessionOpenResponse, another status", (7,),
         ("Opening", [status("VersionMismatch")]), ("Opening", ["tick 19", status("RedundantSession")]), (OLD, [status("VersionMismatch")])),
    move("opening-late", "Opening", "Waiting", "20th tick", (18, 19, 7), ("Opening", ["tick 20"])),
    move("confirming-lost", "Confirming", "Waiting", "lost", (), ("Confirming", ["lost"])),
    move("confirming-advised", "Confirming", "Waiting", "Advisory naming the SessionOk", (7,),
         ("Confirming", [advisory(2)]), ("Confirming", [advisory(2, "UnreadableMessage")])),
    move("confirming-late", "Confirming", "Waiting", "20th tick", (19, 7), ("Confirming", ["tick 20"])),
    move("up-lost", "Up", "Waiting", "lost", (), ("Up", ["lost"]), ("pushes", ["lost"]), (AWAITED, ["lost"]), leaves_up=True),
    move("up-late", "Up", "Waiting", "20th tick of an open SessionOk", (19, 7), (AWAITED, ["tick 20"]), ("both", ["tick 20"]), leaves_up=True),
    move("waiting-stop", "Waiting", "Stopped", "stop", (), ("Waiting", ["stop"]), ("Waiting 300", ["stop"])),
    move("connecting-stop", "Connecting", "Stopped", "stop", (), ("Connecting", ["stop"])),
    move("opening-stop", "Opening", "Stopped", "stop", (19, 7), ("Opening", ["stop"])),
    move("confirming-stop", "Confirming", "Stopped", "stop", (19, 7), ("Confirming", ["stop"])),
    move("up-stop", "Up", "Stopped", "stop", (19, 7), ("Up", ["stop"]), ("pushes", ["stop"]), leaves_up=True),
]

# Within Up: the heartbeat, and the life of a push.
HEARTBEAT = [
    move("heartbeat", NONE, AWAITED, "interval-th tick since the last SessionOk", (3,), ("Up", ["tick 100"]), (AWAITED, ["tick 7", ok(3), "tick 93"])),
    move("heartbeat-ok", AWAITED, NONE, "Ok naming it", (), (AWAITED, [ok(3)]), (AWAITED, ["tick 19", ok(3)])),
    move("heartbeat-advised", AWAITED, NONE, "Advisory naming it", (17,), (AWAITED, [advisory(3)])),
]
PUSHES = [
    move("push", "", MORE, "Response pushed", (4,), ("Up", ["push 7"])),
    move("advise", "", ADVISORY, "Advisory pushed", (6,), ("Up", ["advise 8"])),
    move("more-late", MORE, MORE, "20th tick", (5,), ("three resends", ["tick 20"])),
    move("more-unreadable", MORE, MORE, "UnreadableMessage naming it", (5,), ("three resends", ["tick 19", advisory(3, "UnreadableMessage")])),
    move("again-late", MORE, SPENT, "20th tick", (5,), (MORE, ["tick 20"]), ("the second of three", ["tick 20"])),
    move("again-unreadable", MORE, SPENT, "UnreadableMessage naming it", (5,),
         *((start, ["tick 19", advisory(3, "UnreadableMessage")]) for start in (MORE, "the second of three"))),
    move("more-ok", MORE, CLOSED, "Ok naming it", (9,), *((start, lines) for start in NOT_YET_SPENT for lines in ([ok(3)], ["tick 19", ok(3)]))),
    move("more-advised", MORE, CLOSED, "another Advisory naming it", (10,), *((start, [advisory(3)]) for start in NOT_YET_SPENT)),
    move("ok", SPENT, CLOSED, "Ok naming it", (9,), *((start, [ok(3)]) for start in (*ALL_SENT, ADVISORY))),
    move("advised", SPENT, CLOSED, "any Advisory naming it", (10,),
         *((start, [advisory(3, word)]) for start in (*ALL_SENT, ADVISORY) for word in ("Alert", "UnreadableMessage"))),
    move("late", SPENT, CLOSED, "20th tick", (11,), *((start, ["tick 20"]) for start in (*ALL_SENT, ADVISORY))),
    move("up-left", OPEN, CLOSED, "Up is left", (LOST,), *((start, ["lost"]) for start in (*NOT_YET_SPENT, *ALL_SENT, ADVISORY))),
]

# What is heard and changes neither the state nor a push.
STAYS = [
    move("opening-others", "Opening", "Opening", "other messages", (14,),
         *(("Opening", [message]) for message in (ok(1), advisory(1), REQUEST, RESPONSE, SESSION_OK))),
    move("opening-unreadable", "Opening", "Opening", "refusal 8 to 14", (16,),
         ("Opening", ["message <Ok>"]), *(("Opening", ["unreadable %d" % refusal]) for refusal in GIVEN)),
    move("confirming-nothing", "Confirming", "Confirming", "naming nothing open", (15,), ("Confirming", [ok(1)]), ("Confirming", [advisory(3)])),
    move("confirming-about", "Confirming", "Confirming", "no inRelationTo", (17,), ("Confirming", [advisory(None)])),
    move("confirming-others", "Confirming", "Confirming", "other messages", (14,),
         *(("Confirming", [message]) for message in (status("Ok"), REQUEST, RESPONSE, SESSION_OK))),
    move("confirming-unreadable", "Confirming", "Confirming", "refusal 8 to 14", (16,), *(("Confirming", ["unreadable %d" % refusal]) for refusal in GIVEN)),
    move("up-request", "Up", "Up", "Request", (13,), ("Up", [REQUEST]), ("pushes", [REQUEST])),
    move("up-nothing", "Up", "Up", "naming nothing open", (15,), ("Up", [ok(2)]), ("pushes", [advisory(99)])),
    move("up-about", "Up", "Up", "no inRelationTo", (17,), ("pushes", [advisory(None, "UnreadableMessage")])),
    move("up-others", "Up", "Up", "other messages", (14,), *(("Up", [message]) for message in (status("Ok"), RESPONSE, SESSION_OK))),
    move("up-unreadable", "Up", "Up", "refusal 8 to 14", (16,), *(("Up", ["unreadable %d" % refusal]) for refusal in GIVEN)),
]


def said(one):
    """What a move's events say, by code and name."""
    words = ["%d %s" % (code, NAMES[code]) for code in one.events]
    if one.leaves_up:
        words.append("%d %s, each push" % (LOST, NAMES[LOST]))
    return words or ["no event"]


def named(name):
    return next(one for one in MOVES + HEARTBEAT + PUSHES + STAYS if one.name == name)
