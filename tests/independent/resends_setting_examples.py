"""Scripts about the setting `resends` with the output due, from the rulings on M-105 and the page about interfaces
("replay"). Nothing was found by running anything.

Where the papers leave room, the name of the script begins with `our reading`, as in `replay_examples`.
"""

import itertools

from replay_examples import LONGEST_LINE, NO_RESENDS, form
from resends_examples import FIGURES, silence
from session_examples import OPENING_TOLD, UP_TOLD
from session_lines import REDUNDANT, TO_OPENING, TO_UP, ok, script_of

# A Response and silence, and what this shows of the figure.
SHOWS_RESENDS = script_of(TO_UP + ("push 9", "tick 99"))
SHOWN = {resends: silence(resends, 5, 3) + ", end up 0" for resends in FIGURES}


def shows(name, beginning, resends, *told):
    """What the lines before the session tell, and the figure that counts."""
    return form(name, beginning + SHOWS_RESENDS, *told, UP_TOLD, SHOWN[resends])


def figures_given():
    for figures, counts in (("", 1), ("0", 0), ("1", 1), ("2", 2), ("3", 3), ("0 3", 3), ("3 0", 0), ("1 2 3", 3),
                            ("3 2 1", 1), ("2 2", 2), ("4 2", 2), ("4294967296 0", 0)):
        yield shows("resends given: " + (figures or "none"),
                    script_of("resends " + figure for figure in figures.split()), counts)
    yield shows("resends between empty lines", b"\n\nresends 3\n\n\n", 3)
    yield shows("resends given between empty lines", b"\nresends 3\n\nresends 0\n\n", 0)
    yield form("resends alone", b"resends 3\n", "end waiting 0")
    yield form("resends alone without LF", b"resends 0", "end waiting 0")
    yield form("bad resends alone without LF", b"resends 03", "line 1 bad, end waiting 0")
    yield form("resends are a line", b"resends 2\nresends 3\n\nx\ntick", "line 4 bad, 1 1 0 0, end connecting 0")


def figures_refused():
    for figure in (4, 5, 9, 10, 30, 100, 255, 256, 257, 259, 65536, 65537, 65539, 2147483648, 4294967295):
        yield form("resends %d" % figure, b"resends %d\n" % figure + SHOWS_RESENDS, "stop 18")
    yield form("refused resends with nothing after them", b"resends 4", "stop 18")
    yield form("refused resends with bad lines after them", b"\nresends 4\nx\nresends 1\ntick 0\ntick\n", "stop 18")
    yield form("the last resends count where they are refused", b"resends 1\nresends 4\ntick\n", "stop 18")
    yield form("refused resends with a bad figure after them", b"resends 4\nresends 01\nresends 1\ntick\n", "stop 18")


def two_refusals():
    """4 is looked at first, whichever setting comes first; of each the last counts."""
    for settings, refusal in (
            ("interval 20, resends 4", 4), ("resends 4, interval 20", 4), ("interval 20, resends 3", 4),
            ("resends 0, interval 6001", 4), ("interval 6001, resends 4294967295", 4), ("interval 0, resends 18", 4),
            ("interval 21, resends 4", 18), ("resends 4, interval 6000", 18), ("interval 100, resends 4", 18),
            ("conduct old, resends 4", 18), ("resends 4, conduct new", 18), ("conduct old, interval 20, resends 4", 4),
            ("interval 20, resends 4, interval 40", 18), ("interval 20, resends 4, resends 3", 4),
            ("resends 4, interval 20, interval 21", 18), ("resends 4, resends 1, interval 20", 4)):
        yield form("a making refused: " + settings, script_of(settings.split(", ")) + SHOWS_RESENDS,
                   "stop %d" % refusal)
    yield shows("a making refused by neither: interval 20, resends 4, interval 100, resends 2",
                b"interval 20\nresends 4\ninterval 100\nresends 2\n", 2)


def with_the_other_settings():
    """Each leaves the others as they were. Under the old conduct, with interval 40 and more than one resend, the last
    tick brings a resend and the heartbeat."""
    for settings in itertools.permutations(("interval 40", "conduct old", "resends 3")):
        yield form("three settings: " + ", ".join(settings),
                   script_of(settings + TO_OPENING + (REDUNDANT, ok(2), "push 9", "tick 40")), OPENING_TOLD,
                   "3 3 2 0, 4 8 0 0, 5 4 3 9, 25 5 3 9, 45 5 3 9, 45 3 4 0, end up 1")
    for settings in itertools.permutations(("interval 40", "resends 0")):
        yield form("two settings: " + ", ".join(settings), script_of(settings + TO_UP + ("push 9", "tick 40")), UP_TOLD,
                   "5 4 3 9, 25 11 3 9, 45 3 4 0, end up 0")
    for resends in FIGURES:
        yield form("resends %d leave interval 100" % resends,
                   script_of(("resends %d" % resends,) + TO_UP + ("tick 99", "tick")), UP_TOLD, "104 3 3 0, end up 0")
        yield form("resends %d leave the new conduct" % resends,
                   script_of(("resends %d" % resends,) + TO_OPENING + (REDUNDANT,)), OPENING_TOLD,
                   "3 7 0 0, end waiting 0")
    for setting in ("interval 100", "conduct old", "conduct new"):
        yield shows("%s leaves 1 resend" % setting, script_of([setting]), 1)


def after_the_settings():
    yield shows("resends after last", b"last 0\nresends 3\n", 1, "line 2 bad")
    yield shows("resends after a bad line", b"x\nresends 3\n", 1, "line 1 bad, line 2 bad")
    yield shows("refused resends after a bad line", b"x\nresends 4\n", 1, "line 1 bad, line 2 bad")
    yield form("resends after a call", b"tick\nresends 3\nresends 0\nresends 4\n",
               "1 1 0 0, line 2 bad, line 3 bad, line 4 bad, end connecting 0")
    yield form("resends after a refused call", b"lost\nresends 3\n", "1 refused 6, line 2 bad, end waiting 0")
    yield form("resends when stopped", b"stop\nresends 3\nresends x\ntick\n",
               "line 2 bad, line 3 bad, 2 refused 5, end stopped 0")
    yield form("resends while a push is open", script_of(TO_UP + ("push 9", "tick 10", "resends 3", "tick 89")),
               UP_TOLD, "5 4 3 9, line 7 bad, 25 5 3 9, 45 11 3 9, end up 0")
    yield form("resends while a push is open, 0 before",
               script_of(("resends 0",) + TO_UP + ("push 9", "tick 10", "resends 3", "tick 89")), UP_TOLD,
               "5 4 3 9, line 8 bad, 25 11 3 9, end up 0")
    yield form("resends between two links, 3 before",
               script_of(("resends 3",) + TO_OPENING + ("lost", "resends 0", "tick 300", "connected") + (
                   TO_UP[2], ok(3), "push 9", "tick 99")),
               OPENING_TOLD, "line 5 bad, 303 1 0 0, 304 2 2 0, 305 3 3 0, 306 8 0 0", silence(3, 307, 4), "end up 0")
    yield form("last leaves the resends", script_of(("resends 3", "last 7") + TO_OPENING + (
        TO_UP[2], "last 3", ok(9), "last 4", "push 9", "last 0", "tick 99")),
               "1 1 0 0, 2 2 8 0, 3 3 9 0, 4 8 0 0", silence(3, 5, 5), "end up 0")


def no_figures():
    for line in NO_RESENDS:
        yield shows("no resends: %r" % line, line + b"\nresends 3\n", 1, "line 1 bad, line 2 bad")
        yield shows("no resends after 0: %r" % line, b"resends 0\n" + line + b"\nresends 3\n", 0,
                    "line 2 bad, line 3 bad")


def readings():
    """The papers give no range for the figure: every decimal number is a well-formed setting, and 18 refuses it."""
    for text in (b"4294967296", b"4294967297", b"4294967299", b"9999999999", b"18446744073709551616",
                 b"18446744073709551619", b"1" + b"0" * 5000):
        yield form("our reading: resends %.24s of %d digits" % (text.decode(), len(text)),
                   b"resends 2\nresends %s\ntick\n" % text, "stop 18")
        yield form("our reading: interval 20 and resends %.24s of %d digits" % (text.decode(), len(text)),
                   b"resends %s\ninterval 20\ntick\n" % text, "stop 4")
    yield form("our reading: a line too long sets no resends",
               b"resends 1" + b"0" * LONGEST_LINE + b"\nresends 4\ntick\n", "line 1 bad, line 2 bad, 1 1 0 0",
               "end connecting 0")


RESENDS_SETTING_BY_HAND = (
    tuple(figures_given()) + tuple(figures_refused()) + tuple(two_refusals()) + tuple(with_the_other_settings())
    + tuple(after_the_settings()) + tuple(no_figures()) + tuple(readings()))
