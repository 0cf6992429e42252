"""Scripts about two messages at once with the output due, from document 02 (M-113), the rulings on it and document 01
("The session"). Nothing was found by running anything.

A table has a row for each mix of an Ok, an UnreadableMessage and an Advisory of another type, in the order of `MIXES`:
what each of the two messages tells, and what is told after them. A row about two different things is two scripts, one
for each order, and what is told afterwards stands there once. Pushes that nothing names show age, order and numbers.
"""

from typing import NamedTuple, Tuple

from resends_examples import FIGURES, at, said
from session_examples import UP_TOLD, case
from session_lines import TO_UP, advisory, ok, unreadable


def other(number):
    return advisory(number)


def unknown(number):
    return advisory(number, "urn:example:none-of-table-6")


def empty(number):
    """The nearest to no type that a message can come to: the reader refuses one without the element."""
    return advisory(number, "")


NAMES = {ok: "Ok", unreadable: "UnreadableMessage", other: "Advisory", unknown: "Advisory of unknown type",
         empty: "Advisory of empty type"}
MIXES = ((ok, ok), (ok, unreadable), (ok, other), (unreadable, ok), (unreadable, unreadable), (unreadable, other),
         (other, ok), (other, unreadable), (other, other))


class Scene(NamedTuple):
    """What two messages come into."""

    label: str
    lines: Tuple[str, ...]  # from Up to the messages
    told: str
    call: int  # the first of the two messages
    later: Tuple[str, ...]  # the lines after them


def told_at(call, event):
    """No event, no line."""
    return ["%d %s" % (call, event)] if event else []


def both_orders(scene, resends, first, second, after):
    """Two scripts. First and second: what is named, its number, the message, and what that tells."""
    for one, two in ((first, second), (second, first)):
        messages = [make(number) for _, number, make, _ in (one, two)]
        said_of = ["%s for %s %d" % (NAMES[make], thing, number) for thing, number, make, _ in (one, two)]
        yield at(resends, "%s: %s" % (scene.label, ", ".join(said_of)), (*scene.lines, *messages, *scene.later),
                 scene.told, *told_at(scene.call, one[3]), *told_at(scene.call + 1, two[3]), after)


def of_table(scene, resends, named, rows, instead=None):
    """The scripts of a table; `named` has the two things with their numbers, `instead` a message for another."""
    first, second = named
    for mix, (told_first, told_second, after) in zip(MIXES, rows):
        one, two = ((instead or {}).get(make, make) for make in mix)
        yield from both_orders(scene, resends, (*first, one, told_first), (*second, two, told_second), after)


# Two Responses, 3 and 5. The Advisory push 4 and the Response 6 are not named, nor is the Response 7, which comes after
# the two messages. The pushes are 5 ticks old when the messages come, calls 14 and 15, and tick t after those is call
# 16 + t. What was pushed is due at call 31, and what is sent with the messages, or after them, at call 36.
RESPONSES = Scene("at once", ("push 11", "advise 12", "push 13", "push 14", "tick 5"),
                  "5 4 3 11, 6 6 4 12, 7 4 5 13, 8 4 6 14", 14, ("push 15", "tick 20", "lost"))
CLOSED_AT_0 = "16 4 7 15, 31 11 4 12, 31 11 6 14, 36 11 7 15, end waiting 0"
CLOSED = "16 4 7 15, 31 11 4 12, 31 5 6 14, 36 5 7 15, 37 12 6 14, 37 12 7 15, end waiting 0"
AGAIN_3_AT_1 = "16 4 7 15, 31 11 4 12, 31 5 6 14, 36 11 3 11, 36 5 7 15, 37 12 6 14, 37 12 7 15, end waiting 0"
AGAIN_5_AT_1 = "16 4 7 15, 31 11 4 12, 31 5 6 14, 36 11 5 13, 36 5 7 15, 37 12 6 14, 37 12 7 15, end waiting 0"
AGAIN_BOTH_AT_1 = ("16 4 7 15, 31 11 4 12, 31 5 6 14, 36 11 3 11, 36 11 5 13, 36 5 7 15, 37 12 6 14, 37 12 7 15, "
                   "end waiting 0")
AGAIN_3 = ("16 4 7 15, 31 11 4 12, 31 5 6 14, 36 5 3 11, 36 5 7 15, 37 12 3 11, 37 12 6 14, 37 12 7 15, "
           "end waiting 0")
AGAIN_5 = ("16 4 7 15, 31 11 4 12, 31 5 6 14, 36 5 5 13, 36 5 7 15, 37 12 5 13, 37 12 6 14, 37 12 7 15, "
           "end waiting 0")
AGAIN_BOTH = ("16 4 7 15, 31 11 4 12, 31 5 6 14, 36 5 3 11, 36 5 5 13, 36 5 7 15, 37 12 3 11, 37 12 5 13, 37 12 6 14, "
              "37 12 7 15, end waiting 0")
OF_TWO_RESPONSES_AT_0 = (
    ("9 3 11", "9 5 13", CLOSED_AT_0), ("9 3 11", "10 5 13", CLOSED_AT_0), ("9 3 11", "10 5 13", CLOSED_AT_0),
    ("10 3 11", "9 5 13", CLOSED_AT_0), ("10 3 11", "10 5 13", CLOSED_AT_0), ("10 3 11", "10 5 13", CLOSED_AT_0),
    ("10 3 11", "9 5 13", CLOSED_AT_0), ("10 3 11", "10 5 13", CLOSED_AT_0), ("10 3 11", "10 5 13", CLOSED_AT_0))
OF_TWO_RESPONSES_AT_1 = (
    ("9 3 11", "9 5 13", CLOSED), ("9 3 11", "5 5 13", AGAIN_5_AT_1), ("9 3 11", "10 5 13", CLOSED),
    ("5 3 11", "9 5 13", AGAIN_3_AT_1), ("5 3 11", "5 5 13", AGAIN_BOTH_AT_1), ("5 3 11", "10 5 13", AGAIN_3_AT_1),
    ("10 3 11", "9 5 13", CLOSED), ("10 3 11", "5 5 13", AGAIN_5_AT_1), ("10 3 11", "10 5 13", CLOSED))
OF_TWO_RESPONSES = (
    ("9 3 11", "9 5 13", CLOSED), ("9 3 11", "5 5 13", AGAIN_5), ("9 3 11", "10 5 13", CLOSED),
    ("5 3 11", "9 5 13", AGAIN_3), ("5 3 11", "5 5 13", AGAIN_BOTH), ("5 3 11", "10 5 13", AGAIN_3),
    ("10 3 11", "9 5 13", CLOSED), ("10 3 11", "5 5 13", AGAIN_5), ("10 3 11", "10 5 13", CLOSED))


def two_responses():
    tables = (OF_TWO_RESPONSES_AT_0, OF_TWO_RESPONSES_AT_1, OF_TWO_RESPONSES, OF_TWO_RESPONSES)
    for resends, rows in enumerate(tables):
        yield from of_table(RESPONSES, resends, (("Response", 3), ("Response", 5)), rows)


# The Response 3 and the Advisory push 4; the Response 5 and the Advisory push 6 are not named. The calls are as above.
# The Advisory of another type has an unknown one.
BOTH_KINDS = Scene("at once", ("push 11", "advise 12", "push 13", "advise 14", "tick 5"),
                   "5 4 3 11, 6 6 4 12, 7 4 5 13, 8 6 6 14", 14, ("push 15", "tick 20", "lost"))
GONE_AT_0 = "16 4 7 15, 31 11 5 13, 31 11 6 14, 36 11 7 15, end waiting 0"
GONE = "16 4 7 15, 31 5 5 13, 31 11 6 14, 36 5 7 15, 37 12 5 13, 37 12 7 15, end waiting 0"
LEFT_3_AT_1 = "16 4 7 15, 31 5 5 13, 31 11 6 14, 36 11 3 11, 36 5 7 15, 37 12 5 13, 37 12 7 15, end waiting 0"
LEFT_3 = "16 4 7 15, 31 5 5 13, 31 11 6 14, 36 5 3 11, 36 5 7 15, 37 12 3 11, 37 12 5 13, 37 12 7 15, end waiting 0"
OF_BOTH_KINDS_AT_0 = (
    ("9 3 11", "9 4 12", GONE_AT_0), ("9 3 11", "10 4 12", GONE_AT_0), ("9 3 11", "10 4 12", GONE_AT_0),
    ("10 3 11", "9 4 12", GONE_AT_0), ("10 3 11", "10 4 12", GONE_AT_0), ("10 3 11", "10 4 12", GONE_AT_0),
    ("10 3 11", "9 4 12", GONE_AT_0), ("10 3 11", "10 4 12", GONE_AT_0), ("10 3 11", "10 4 12", GONE_AT_0))
OF_BOTH_KINDS_AT_1 = (
    ("9 3 11", "9 4 12", GONE), ("9 3 11", "10 4 12", GONE), ("9 3 11", "10 4 12", GONE),
    ("5 3 11", "9 4 12", LEFT_3_AT_1), ("5 3 11", "10 4 12", LEFT_3_AT_1), ("5 3 11", "10 4 12", LEFT_3_AT_1),
    ("10 3 11", "9 4 12", GONE), ("10 3 11", "10 4 12", GONE), ("10 3 11", "10 4 12", GONE))
OF_BOTH_KINDS = (
    ("9 3 11", "9 4 12", GONE), ("9 3 11", "10 4 12", GONE), ("9 3 11", "10 4 12", GONE),
    ("5 3 11", "9 4 12", LEFT_3), ("5 3 11", "10 4 12", LEFT_3), ("5 3 11", "10 4 12", LEFT_3),
    ("10 3 11", "9 4 12", GONE), ("10 3 11", "10 4 12", GONE), ("10 3 11", "10 4 12", GONE))


def response_and_advisory_push():
    for resends, rows in enumerate((OF_BOTH_KINDS_AT_0, OF_BOTH_KINDS_AT_1, OF_BOTH_KINDS, OF_BOTH_KINDS)):
        yield from of_table(BOTH_KINDS, resends, (("Response", 3), ("Advisory push", 4)), rows, {other: unknown})


# The Advisory pushes 4 and 6, with the Responses 3 and 5 not named.
ADVISORIES_GONE_AT_0 = "16 4 7 15, 31 11 3 11, 31 11 5 13, 36 11 7 15, end waiting 0"
ADVISORIES_GONE = "16 4 7 15, 31 5 3 11, 31 5 5 13, 36 5 7 15, 37 12 3 11, 37 12 5 13, 37 12 7 15, end waiting 0"
OF_TWO_ADVISORY_PUSHES = (("9 4 12", "9 6 14"), ("9 4 12", "10 6 14"), ("9 4 12", "10 6 14"),
                          ("10 4 12", "9 6 14"), ("10 4 12", "10 6 14"), ("10 4 12", "10 6 14"),
                          ("10 4 12", "9 6 14"), ("10 4 12", "10 6 14"), ("10 4 12", "10 6 14"))


def two_advisory_pushes():
    for resends, after in ((0, ADVISORIES_GONE_AT_0), (3, ADVISORIES_GONE)):
        rows = [(*told, after) for told in OF_TWO_ADVISORY_PUSHES]
        yield from of_table(BOTH_KINDS, resends, (("Advisory push", 4), ("Advisory push", 6)), rows)


# The SessionOk 6 is sent at call 107, when the pushes 3 to 5 are 5 ticks old, and 3 ticks later the messages come,
# calls 111 and 112. From then on the call of a tick is 105 more than the ticks since the pushes: they are due at call
# 125, what is sent with the messages at call 133, and the next SessionOk at call 210. Closed by a message, the
# SessionOk does not end the session at call 130. The Advisory of another type has an empty one.
HEARTBEAT = Scene("at once", ("tick 95", "push 11", "advise 12", "push 13", "tick 8"),
                  "100 4 3 11, 101 6 4 12, 102 4 5 13, 107 3 6 0", 111, ("push 15", "tick 20", "tick 77"))
# By the resends: after the Response 3 was closed; after it was sent again; after the Advisory push 4 was closed.
CLOSED_3 = {
    0: "113 4 7 15, 125 11 4 12, 125 11 5 13, 133 11 7 15, 210 3 8 0, end up 0",
    1: "113 4 7 15, 125 11 4 12, 125 5 5 13, 133 5 7 15, 145 11 5 13, 153 11 7 15, 210 3 8 0, end up 0",
    3: "113 4 7 15, 125 11 4 12, 125 5 5 13, 133 5 7 15, 145 5 5 13, 153 5 7 15, 165 5 5 13, 173 5 7 15, 185 11 5 13, "
       "193 11 7 15, 210 3 8 0, end up 0",
}
SENT_3 = {
    1: "113 4 7 15, 125 11 4 12, 125 5 5 13, 133 11 3 11, 133 5 7 15, 145 11 5 13, 153 11 7 15, 210 3 8 0, end up 0",
    3: "113 4 7 15, 125 11 4 12, 125 5 5 13, 133 5 3 11, 133 5 7 15, 145 5 5 13, 153 5 3 11, 153 5 7 15, 165 5 5 13, "
       "173 11 3 11, 173 5 7 15, 185 11 5 13, 193 11 7 15, 210 3 8 0, end up 0",
}
CLOSED_4 = {
    0: "113 4 7 15, 125 11 3 11, 125 11 5 13, 133 11 7 15, 210 3 8 0, end up 0",
    1: "113 4 7 15, 125 5 3 11, 125 5 5 13, 133 5 7 15, 145 11 3 11, 145 11 5 13, 153 11 7 15, 210 3 8 0, end up 0",
    3: "113 4 7 15, 125 5 3 11, 125 5 5 13, 133 5 7 15, 145 5 3 11, 145 5 5 13, 153 5 7 15, 165 5 3 11, 165 5 5 13, "
       "173 5 7 15, 185 11 3 11, 185 11 5 13, 193 11 7 15, 210 3 8 0, end up 0",
}
# What is told of the SessionOk, of the push, and after them.
WITH_RESPONSE_AT_0 = (
    ("", "9 3 11", CLOSED_3), ("", "10 3 11", CLOSED_3), ("", "10 3 11", CLOSED_3),
    ("17 0 0", "9 3 11", CLOSED_3), ("17 0 0", "10 3 11", CLOSED_3), ("17 0 0", "10 3 11", CLOSED_3),
    ("17 0 0", "9 3 11", CLOSED_3), ("17 0 0", "10 3 11", CLOSED_3), ("17 0 0", "10 3 11", CLOSED_3))
WITH_RESPONSE = (
    ("", "9 3 11", CLOSED_3), ("", "5 3 11", SENT_3), ("", "10 3 11", CLOSED_3),
    ("17 0 0", "9 3 11", CLOSED_3), ("17 0 0", "5 3 11", SENT_3), ("17 0 0", "10 3 11", CLOSED_3),
    ("17 0 0", "9 3 11", CLOSED_3), ("17 0 0", "5 3 11", SENT_3), ("17 0 0", "10 3 11", CLOSED_3))
WITH_ADVISORY_PUSH = (
    ("", "9 4 12", CLOSED_4), ("", "10 4 12", CLOSED_4), ("", "10 4 12", CLOSED_4),
    ("17 0 0", "9 4 12", CLOSED_4), ("17 0 0", "10 4 12", CLOSED_4), ("17 0 0", "10 4 12", CLOSED_4),
    ("17 0 0", "9 4 12", CLOSED_4), ("17 0 0", "10 4 12", CLOSED_4), ("17 0 0", "10 4 12", CLOSED_4))
WITH_THE_SESSION_OK = (
    (0, ("Response", 3), WITH_RESPONSE_AT_0), (1, ("Response", 3), WITH_RESPONSE), (3, ("Response", 3), WITH_RESPONSE),
    (0, ("Advisory push", 4), WITH_ADVISORY_PUSH), (1, ("Advisory push", 4), WITH_ADVISORY_PUSH),
    (3, ("Advisory push", 4), WITH_ADVISORY_PUSH))


def session_ok_and_push():
    for resends, push, rows in WITH_THE_SESSION_OK:
        rows = [(told_first, told_second, after[resends]) for told_first, told_second, after in rows]
        yield from of_table(HEARTBEAT, resends, (("SessionOk", 6), push), rows, {other: empty})


# More that shows, call by call, what is left: pushes of two ages, the last tick before pushes are due, a full table,
# which numbers are free, and numbers about the wrap.
TWO_AGES = Scene("at two ages", ("push 11", "tick 20", "push 12", "tick 3"), "5 4 3 11, 25 5 3 11, 26 4 4 12", 30,
                 ("tick 20",))
LAST_TICK = Scene("in the last tick", ("push 11", "push 12", "push 13", "tick 19"), "5 4 3 11, 6 4 4 12, 7 4 5 13", 27,
                  ("tick", "tick 19"))
FULL_TABLE = Scene("in a full table", ("push 7",) * 32, ", ".join("%d 4 %d 7" % (n + 2, n) for n in range(3, 35)), 37,
                   ("push 8", "push 8", "push 8"))
FREED = Scene("numbers freed", ("push 11", "advise 12", "push 13", "push 14"),
              "5 4 3 11, 6 6 4 12, 7 4 5 13, 8 4 6 14", 9, ("last 2", "push 15", "push 16", "push 17"))
FREED_BY_SESSION_OK = Scene("numbers freed", ("tick 95", "push 11", "tick 5"), "100 4 3 11, 105 3 4 0", 106,
                            ("last 2", "push 15", "push 16", "push 17"))
WRAP = Scene("about the wrap", ("last 4294967294", "push 11", "push 12", "advise 13"),
             "5 4 4294967295 11, 6 4 0 12, 7 6 1 13", 8, ("push 14", "lost"))
FIRST, SECOND = ("Response", 3), ("Response", 4)
MORE = (
    (TWO_AGES, 1, (*FIRST, unreadable, "10 3 11"), (*SECOND, unreadable, "5 4 12"), "51 11 4 12, end up 0"),
    (TWO_AGES, 2, (*FIRST, unreadable, "5 3 11"), (*SECOND, unreadable, "5 4 12"), "51 11 3 11, 51 5 4 12, end up 1"),
    (TWO_AGES, 1, (*FIRST, unreadable, "10 3 11"), (*SECOND, ok, "9 4 12"), "end up 0"),
    (TWO_AGES, 1, (*FIRST, ok, "9 3 11"), (*SECOND, unreadable, "5 4 12"), "51 11 4 12, end up 0"),
    (LAST_TICK, 1, (*FIRST, unreadable, "5 3 11"), (*SECOND, ok, "9 4 12"), "29 5 5 13, 48 11 3 11, end up 1"),
    (LAST_TICK, 3, (*FIRST, unreadable, "5 3 11"), (*SECOND, unreadable, "5 4 12"),
     "29 5 5 13, 48 5 3 11, 48 5 4 12, end up 3"),
    (FULL_TABLE, 1, ("Response", 3, ok, "9 3 7"), ("Response", 34, other, "10 34 7"),
     "39 4 35 8, 40 4 36 8, 41 refused 7, end up 32"),
    (FULL_TABLE, 1, ("Response", 20, ok, "9 20 7"), ("Response", 21, unreadable, "5 21 7"),
     "39 4 35 8, 40 refused 7, 41 refused 7, end up 32"),
    (FULL_TABLE, 1, ("Response", 3, unreadable, "5 3 7"), ("Response", 34, unreadable, "5 34 7"),
     "39 refused 7, 40 refused 7, 41 refused 7, end up 32"),
    (FREED, 1, ("Response", 3, ok, "9 3 11"), ("Response", 5, ok, "9 5 13"),
     "11 4 3 15, 12 4 5 16, 13 4 7 17, end up 5"),
    (FREED, 1, ("Response", 3, ok, "9 3 11"), ("Response", 5, unreadable, "5 5 13"),
     "11 4 3 15, 12 4 7 16, 13 4 8 17, end up 6"),
    (FREED, 1, ("Response", 3, unreadable, "5 3 11"), ("Response", 5, other, "10 5 13"),
     "11 4 5 15, 12 4 7 16, 13 4 8 17, end up 6"),
    (FREED, 1, ("Response", 3, unreadable, "5 3 11"), ("Response", 5, unreadable, "5 5 13"),
     "11 4 7 15, 12 4 8 16, 13 4 9 17, end up 7"),
    (FREED_BY_SESSION_OK, 1, ("SessionOk", 4, ok, ""), ("Response", 3, ok, "9 3 11"),
     "108 4 3 15, 109 4 4 16, 110 4 5 17, end up 3"),
    (FREED_BY_SESSION_OK, 1, ("SessionOk", 4, other, "17 0 0"), ("Response", 3, unreadable, "5 3 11"),
     "108 4 4 15, 109 4 5 16, 110 4 6 17, end up 4"),
    (WRAP, 1, ("Response", 4294967295, ok, "9 4294967295 11"), ("Response", 0, ok, "9 0 12"),
     "10 4 2 14, 11 12 1 13, 11 12 2 14, end waiting 0"),
    (WRAP, 1, ("Response", 4294967295, unreadable, "5 4294967295 11"), ("Response", 0, ok, "9 0 12"),
     "10 4 2 14, 11 12 4294967295 11, 11 12 1 13, 11 12 2 14, end waiting 0"),
    (WRAP, 1, ("Response", 4294967295, other, "10 4294967295 11"), ("Response", 0, unreadable, "5 0 12"),
     "10 4 2 14, 11 12 0 12, 11 12 1 13, 11 12 2 14, end waiting 0"),
)

# Two messages that name one thing: each mix is an order of its own. Nine pushes, 3 to 11 with handles 1 to 9, meet a
# mix each. By the resends that are left to a Response, what its two messages tell.
NINE = tuple(range(3, 12))
WITH_NONE_LEFT = (
    ("9 3 1", "15 0 0"), ("9 4 2", "15 0 0"), ("9 5 3", "15 0 0"),
    ("10 6 4", "15 0 0"), ("10 7 5", "15 0 0"), ("10 8 6", "15 0 0"),
    ("10 9 7", "15 0 0"), ("10 10 8", "15 0 0"), ("10 11 9", "15 0 0"))
WITH_ONE_LEFT = (
    ("9 3 1", "15 0 0"), ("9 4 2", "15 0 0"), ("9 5 3", "15 0 0"),
    ("5 6 4", "9 6 4"), ("5 7 5", "10 7 5"), ("5 8 6", "10 8 6"),
    ("10 9 7", "15 0 0"), ("10 10 8", "15 0 0"), ("10 11 9", "15 0 0"))
WITH_MORE_LEFT = (
    ("9 3 1", "15 0 0"), ("9 4 2", "15 0 0"), ("9 5 3", "15 0 0"),
    ("5 6 4", "9 6 4"), ("5 7 5", "5 7 5"), ("5 8 6", "10 8 6"),
    ("10 9 7", "15 0 0"), ("10 10 8", "15 0 0"), ("10 11 9", "15 0 0"))
BY_RESENDS_LEFT = (WITH_NONE_LEFT, WITH_ONE_LEFT, WITH_MORE_LEFT, WITH_MORE_LEFT)
# The Response 7 may still be open then: the ticks after the messages, and the codes, with which it ends in silence.
SILENCE_BY_RESENDS_LEFT = ((), (), ((20, 11),), ((20, 5), (40, 11)))


def of_nine(form):
    """The form once for each of the nine: N is its number, H its handle."""
    return ", ".join(form.replace("N", str(number)).replace("H", str(number - 2)) for number in NINE)


def nine_pairs(call, rows):
    """The lines of the nine mixes, and what they tell from that call on."""
    lines = tuple(make(number) for mix, number in zip(MIXES, NINE) for make in mix)
    told = (event for row in rows for event in row)
    return lines, ", ".join("%d %s" % (call + place, event) for place, event in enumerate(told))


def one_response():
    """Resends used by UnreadableMessages, and by time."""
    for resends in FIGURES:
        for used in range(resends + 1):
            told = ["%d 5 %d %d" % (14 + place, 3 + place % 9, 1 + place % 9) for place in range(9 * used)]
            yield one_response_used(resends, used, "UnreadableMessage", tuple(map(unreadable, NINE)) * used, told,
                                    14 + 9 * used)
            if used:
                told = [of_nine("%d 5 N H" % call) for call in (33, 53, 73)[:used]]
                yield one_response_used(resends, used, "time", ("tick 20",) * used, told, 14 + 20 * used)


def one_response_used(resends, used, by, lines, told, call):
    """The messages come 7 ticks after the last sending; the call is the first of those ticks. A push at the end shows
    that no number was taken."""
    left = resends - used
    messages, told_of_messages = nine_pairs(call + 7, BY_RESENDS_LEFT[left])
    silence = ["%d %d 7 5" % (call + 24 + tick, code) for tick, code in SILENCE_BY_RESENDS_LEFT[left]]
    return case("two for one Response, %d of %d resends used by %s" % (used, resends, by),
                ("interval 200", *said(resends), *TO_UP, *("push %d" % handle for handle in range(1, 10)), *lines,
                 "tick 7", *messages, "tick 80", "advise 10"),
                UP_TOLD, ", ".join("%d 4 %d %d" % (number + 2, number, number - 2) for number in NINE), *told,
                told_of_messages, *silence, "%d 6 12 10, end up 1" % (call + 105))


def one_advisory_push():
    """It is never sent again, whatever the figure is, so the first message closes it."""
    for resends in FIGURES:
        messages, told_of_messages = nine_pairs(21, WITH_NONE_LEFT)
        yield at(resends, "two for one Advisory push",
                 (*("advise %d" % handle for handle in range(1, 10)), "tick 7", *messages, "tick 80", "advise 10"),
                 ", ".join("%d 6 %d %d" % (number + 2, number, number - 2) for number in NINE), told_of_messages,
                 "119 6 12 10, end up 1")


# The SessionOk 4 is sent at call 105, and the messages come 3 ticks later. The Response 3 and the next SessionOk show
# that the second message does nothing.
TWICE_THE_SESSION_OK = (
    "110 15 0 0", "110 15 0 0", "110 15 0 0",
    "109 17 0 0, 110 15 0 0", "109 17 0 0, 110 15 0 0", "109 17 0 0, 110 15 0 0",
    "109 17 0 0, 110 15 0 0", "109 17 0 0, 110 15 0 0", "109 17 0 0, 110 15 0 0")


def one_session_ok():
    for (one, two), told in zip(MIXES, TWICE_THE_SESSION_OK):
        yield at(1, "two for one SessionOk: %s, %s" % (NAMES[one], NAMES[two]),
                 ("tick 95", "push 11", "tick 8", one(4), two(4), "tick 20", "tick 77"),
                 "100 4 3 11, 105 3 4 0", told, "122 5 3 11, 142 11 3 11, 207 3 5 0, end up 0")


SWAPPED_BY_HAND = (*two_responses(), *response_and_advisory_push(), *two_advisory_pushes(), *session_ok_and_push(),
                   *(script for row in MORE for script in both_orders(*row)), *one_response(), *one_advisory_push(),
                   *one_session_ok())
