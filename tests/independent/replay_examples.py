"""Scripts about the forms of lines with the output due, from the page about interfaces ("replay") and the rulings on
M-110, which adds a setting. Nothing was found by running anything. The setting that M-105 adds has its own module,
`resends_setting_examples`.

Where the page leaves room, the name of the script begins with `our reading`.
"""

from session_examples import CONFIRMING_TOLD, OPENING_TOLD, UP_TOLD, output_of
from session_lines import REDUNDANT, TO_CONFIRMING, TO_OPENING, TO_UP, ok, script_of

LONGEST_LINE = 65520
OK_2 = b"message <Ok inResponseTo='2'/>"

# Each is bad wherever it stands. Words that are settings or calls of later requests are not among them.
BAD_LINES = (
    b"Tick", b"TICK", b" tick", b"tick ", b"tick\r", b"\r", b" ", b"\t", b"\0", b"\xff", b"\xef\xbb\xbftick", b"ticks",
    b"tic", b"tick\0", b"tick 0", b"tick 01", b"tick 1000001", b"tick -1", b"tick +1", b"tick  1", b"tick\t1",
    b"tick 1 ", b"tick 1\r", b"tick 1 1", b"tick 1.0", b"tick 0x1", b"tick one", b"tick 1,000", b"tick 4294967297",
    b"tick 18446744073709551617", b"tick 1" + b"0" * 400, b"tick 4294967296",
    b"connected ", b"connected 1", b"connecte", b"lost ", b"lost 1", b"stop ", b"stop 4", b"Stop", b"stopp",
    b"push", b"push ", b"push 00", b"push 01", b"push 4294967296", b"push 4294967297", b"push 18446744073709551616",
    b"push -1", b"push 1 ", b"push  1", b"push x", b"push\t1", b"push1", b"push 1\r", b"push \xd9\xa7",
    b"advise", b"advise ", b"advise 00", b"advise 4294967296", b"advise 1 2", b"advise one", b"Advise 1",
    b"unreadable", b"unreadable ", b"unreadable 09", b"unreadable 4294967296", b"unreadable 4294967305",
    b"unreadable -9", b"unreadable 9 ",
    b"message", b"messag <a/>", b"messages <a/>", b"Message <a/>", b"message\t<a/>", b" message <a/>", b"<a/>",
    b"message<a/>",
    b"last", b"last ", b"last 00", b"last 4294967296", b"last -1", b"last 1 ",
    b"1 1 0 0", b"end waiting 0", b"line 1 bad", b"# a remark", b"//", b";",
)
NO_INTERVALS = (
    b"interval", b"interval ", b"interval 0100", b"interval 00", b"interval -1", b"interval +50", b"interval  50",
    b"interval 50 ", b"interval 50\r", b"interval\t50", b"Interval 50", b" interval 50", b"interval 50 50",
    b"interval 5O", b"interval 50.0", b"interval50", b"intervals 50",
)
NO_CONDUCTS = (
    b"conduct", b"conduct ", b"conduct New", b"conduct NEW", b"conduct Old", b"conduct OLD", b"conduct  old",
    b"conduct  new", b"conduct old ", b"conduct new ", b"conduct old x", b"conduct old new", b"conduct old\r",
    b"conduct new\r", b"conduct\told", b"conduct old\t", b"conduct old\0", b"Conduct old", b"CONDUCT old",
    b" conduct old", b"\xef\xbb\xbfconduct old", b"conduct \xef\xbb\xbfold", b"conduct=old", b"conduct: old",
    b"conductold", b"conducts old", b"conduc old", b"conduct ol", b"conduct ne", b"conduct olds", b"conduct newer",
    b"conduct 'old'", b"conduct \"new\"", b"conduct 0", b"conduct 1", b"conduct 100", b"conduct other", b"conduct -",
    b"new", b"old",
)
NO_RESENDS = (
    b"resends", b"resends ", b"resends 00", b"resends 01", b"resends 03", b"resends 04", b"resends -1", b"resends -0",
    b"resends +2", b"resends  2", b"resends 2 ", b"resends 2\r", b"resends 2\t", b"resends 2\0", b"resends\t2",
    b"resends 2 2", b"resends 2x", b"resends 2.0", b"resends 0x2", b"resends 2,", b"resends two", b"resends \xd9\xa2",
    b"resends O", b"Resends 2", b"RESENDS 2", b" resends 2", b"\xef\xbb\xbfresends 2", b"resends=2", b"resends: 2",
    b"resends2", b"resend 2", b"resent 2", b"resendss 2", b"resends new", b"resends old",
)
NO_SETTINGS = NO_INTERVALS + NO_CONDUCTS + NO_RESENDS


def form(name, script, *told):
    return name, script, output_of(", ".join(told))


def after(lines, *more):
    return script_of(lines) + b"\n".join(more)


def a_heartbeat_every(interval, beginning):
    """The script that shows which interval counts: its last tick brings the heartbeat."""
    return beginning + script_of(TO_UP + ("tick %d" % interval,))


def settings():
    for interval in (21, 22, 100, 6000):
        yield form("interval %d" % interval, a_heartbeat_every(interval, b"interval %d\n" % interval), UP_TOLD,
                   "%d 3 3 0, end up 0" % (interval + 4))
    yield form("no interval is 100", a_heartbeat_every(100, b""), UP_TOLD, "104 3 3 0, end up 0")
    for interval in (0, 1, 20, 6001, 65557, 4294967295):
        yield form("interval %d" % interval, b"interval %d\ntick\n" % interval, "stop 4")
    yield form("a refused making with nothing after it", b"interval 20", "stop 4")
    yield form("a refused making with bad lines after it", b"\ninterval 20\nx\ninterval 50\ntick 0\ntick\n", "stop 4")
    yield form("the last interval counts", a_heartbeat_every(40, b"interval 30\ninterval 20\ninterval 40\n"), UP_TOLD,
               "44 3 3 0, end up 0")
    yield form("the last interval counts where it is refused", b"interval 40\ninterval 20\ntick\n", "stop 4")
    yield form("empty lines among settings", a_heartbeat_every(40, b"\n\ninterval 30\n\n\ninterval 40\n\n"), UP_TOLD,
               "44 3 3 0, end up 0")
    yield form("a setting alone", b"interval 21", "end waiting 0")
    yield form("a setting after a call", b"tick\ninterval 20\ninterval 50\n", "1 1 0 0, line 2 bad, line 3 bad",
               "end connecting 0")
    yield form("a setting after a bad line", a_heartbeat_every(100, b"x\ninterval 50\n"), "line 1 bad, line 2 bad",
               UP_TOLD, "104 3 3 0, end up 0")
    yield form("a setting after a refused call", b"lost\ninterval 20\n", "1 refused 6, line 2 bad, end waiting 0")
    yield form("a setting after last", b"last 5\ninterval 20\ntick\nconnected", "line 2 bad, 1 1 0 0, 2 2 6 0",
               "end opening 0")
    for line in NO_SETTINGS:
        yield form("no setting: %r" % line, line + b"\ninterval 20\ntick\n", "line 1 bad, line 2 bad, 1 1 0 0",
                   "end connecting 0")


# A session answered by RedundantSession, and what it shows of its conduct.
SHOWS_CONDUCT = script_of(TO_OPENING + (REDUNDANT,))
SHOWS_NEW, SHOWS_OLD = "3 7 0 0, end waiting 0", "3 3 2 0, end confirming 0"


def conduct_settings():
    for settings, shown in (
            ("", SHOWS_NEW), ("new", SHOWS_NEW), ("old", SHOWS_OLD), ("old new", SHOWS_NEW), ("new old", SHOWS_OLD),
            ("new new", SHOWS_NEW), ("old old", SHOWS_OLD), ("old new old", SHOWS_OLD), ("new old new", SHOWS_NEW)):
        lines = ["conduct " + conduct for conduct in settings.split()]
        yield form("conducts given: " + (settings or "none"), script_of(lines) + SHOWS_CONDUCT, OPENING_TOLD, shown)
    yield form("a conduct between empty lines", b"\n\nconduct old\n\n\n" + SHOWS_CONDUCT, OPENING_TOLD, SHOWS_OLD)
    yield form("conducts given between empty lines", b"\nconduct old\n\nconduct new\n\n" + SHOWS_CONDUCT,
               OPENING_TOLD, SHOWS_NEW)
    yield form("a conduct alone", b"conduct old\n", "end waiting 0")
    yield form("a conduct alone without LF", b"conduct new", "end waiting 0")
    yield form("a bad conduct alone without LF", b"conduct Old", "line 1 bad, end waiting 0")
    yield form("a conduct is a line", b"conduct old\nconduct new\n\nx\ntick", "line 4 bad, 1 1 0 0, end connecting 0")


def conduct_and_interval():
    """Each leaves the other as it was. The last tick of a script shows the interval."""
    for settings in ("conduct old, interval 40", "interval 40, conduct old", "conduct new, interval 40, conduct old",
                     "interval 30, conduct old, interval 40", "conduct old, interval 30, interval 40",
                     "conduct old, interval 20, conduct new, interval 40, conduct old"):
        yield form("conduct and interval: " + settings,
                   script_of(settings.split(", ") + list(TO_OPENING) + [REDUNDANT, ok(2), "tick 40"]), OPENING_TOLD,
                   "3 3 2 0, 4 8 0 0, 44 3 3 0, end up 0")
    for settings in ("conduct new, interval 40", "interval 40, conduct new", "interval 40",
                     "conduct old, interval 40, conduct new", "interval 30, conduct new, interval 40"):
        yield form("conduct and interval: " + settings,
                   script_of(settings.split(", ") + list(TO_UP)
                             + ["tick 40", "lost", "tick 300", "connected", REDUNDANT]),
                   UP_TOLD, "44 3 3 0, 345 1 0 0, 346 2 4 0, 347 7 0 0, end waiting 0")
    for conduct in ("old", "new"):
        yield form("conduct %s leaves interval 100" % conduct,
                   script_of(["conduct " + conduct, *TO_UP, "tick 99", "tick"]), UP_TOLD, "104 3 3 0, end up 0")
        for settings in ("conduct C, interval 20", "interval 20, conduct C", "interval 40, conduct C, interval 6001"):
            settings = settings.replace("C", conduct)
            yield form("a refused making with a conduct: " + settings,
                       script_of(settings.split(", ")) + SHOWS_CONDUCT, "stop 4")
    yield form("a refused making with a bad conduct", b"interval 20\nconduct Old\ninterval 40\ntick\n", "stop 4")
    yield form("a conduct between a refused interval and another", b"interval 20\nconduct old\ninterval 40\n"
               + SHOWS_CONDUCT, OPENING_TOLD, SHOWS_OLD)


def conduct_after_settings():
    yield form("a conduct after a call", b"tick\nconduct old\nconduct new\nconnected\n" + script_of([REDUNDANT]),
               "1 1 0 0, line 2 bad, line 3 bad, 2 2 1 0", SHOWS_NEW)
    yield form("a conduct after a call, old before", b"conduct old\ntick\nconduct new\nconnected\n"
               + script_of([REDUNDANT]), "1 1 0 0, line 3 bad, 2 2 1 0", SHOWS_OLD)
    yield form("a conduct in Opening", script_of(TO_OPENING + ("conduct old", REDUNDANT)), OPENING_TOLD, "line 3 bad",
               SHOWS_NEW)
    yield form("a conduct in Opening, old before",
               script_of(("conduct old",) + TO_OPENING + ("conduct new", REDUNDANT)), OPENING_TOLD, "line 4 bad",
               SHOWS_OLD)
    yield form("a conduct after a refused call", b"lost\nconduct old\n", "1 refused 6, line 2 bad, end waiting 0")
    yield form("a conduct after last", b"last 0\nconduct old\n" + SHOWS_CONDUCT, "line 2 bad", OPENING_TOLD, SHOWS_NEW)
    yield form("a conduct when stopped", b"stop\nconduct old\nconduct x\ntick\n",
               "line 2 bad, line 3 bad, 2 refused 5, end stopped 0")
    for line in NO_CONDUCTS:
        yield form("no conduct: %r" % line, line + b"\nconduct old\n" + SHOWS_CONDUCT, "line 1 bad, line 2 bad",
                   OPENING_TOLD, SHOWS_NEW)
        yield form("no conduct after old: %r" % line, b"conduct old\n" + line + b"\nconduct new\n" + SHOWS_CONDUCT,
                   "line 2 bad, line 3 bad", OPENING_TOLD, SHOWS_OLD)


def readings():
    """The page gives no range for the interval: every decimal number is a well-formed setting, and 4 refuses it."""
    for text in (b"4294967296", b"4294967317", b"99999999999", b"18446744073709551637", b"1" + b"0" * 5000):
        yield form("our reading: interval %.24s of %d digits" % (text.decode(), len(text)),
                   b"interval 50\ninterval %s\ntick\n" % text, "stop 4")
    yield form("our reading: a line too long is no setting",
               b"interval 1" + b"0" * LONGEST_LINE + b"\ninterval 20\ntick\n", "line 1 bad, line 2 bad, 1 1 0 0",
               "end connecting 0")
    yield form("our reading: a last line too long without LF is bad",
               after(TO_CONFIRMING, OK_2.ljust(LONGEST_LINE + 1)), CONFIRMING_TOLD, "line 4 bad, end confirming 0")


def lines():
    yield form("an empty script", b"", "end waiting 0")
    yield form("empty lines", b"\n\n\n", "end waiting 0")
    yield form("a last line without LF", b"tick\nconnected", OPENING_TOLD, "end opening 0")
    yield form("a bad last line without LF", b"tick\n\nconnecte", "1 1 0 0, line 3 bad, end connecting 0")
    yield form("CR belongs to the line", b"tick\r\nconnected\r\n\r\n", "line 1 bad, line 2 bad, line 3 bad",
               "end waiting 0")
    yield form("CR belongs to the message", after(TO_CONFIRMING, OK_2 + b"\r\n"), CONFIRMING_TOLD, "4 8 0 0, end up 0")
    yield form("all lines are counted", b"\n\nx\n\ntick 2\ny", "line 3 bad, 1 1 0 0, line 6 bad, end connecting 0")
    yield form("bad lines", b"\n".join(BAD_LINES) + b"\ntick\n",
               ", ".join("line %d bad" % number for number in range(1, len(BAD_LINES) + 1)), "1 1 0 0",
               "end connecting 0")
    yield form("bad lines when stopped", b"stop\nx\ntick 0\ntick\n", "line 2 bad, line 3 bad, 2 refused 5",
               "end stopped 0")
    yield form("tick and tick 1", b"tick 1\nlost\ntick 299\ntick", "1 1 0 0, 302 1 0 0, end connecting 0")
    yield form("the greatest numbers", after(TO_UP, b"push 4294967295", b"unreadable 4294967295", b"last 4294967295",
                                             b"advise 4294967295"),
               UP_TOLD, "5 4 3 4294967295, 6 refused 6, 7 6 0 4294967295, end up 2")
    yield form("last is no call", b"last 7\ntick\nlast 8\nlast 9\nconnected\n", "1 1 0 0, 2 2 10 0, end opening 0")
    yield form("last 0", after(TO_OPENING, b"last 0", b"tick 20"), OPENING_TOLD,
               "22 18 1 0, 22 19 2 0, 22 7 0 0, end waiting 0")
    yield form("a message of no bytes", after(TO_OPENING, b"message ", b"message"), OPENING_TOLD,
               "3 16 0 9, line 4 bad, end opening 0")
    yield form("a message that begins with spaces", after(TO_CONFIRMING, OK_2.replace(b" ", b"   ", 1)),
               CONFIRMING_TOLD, "4 8 0 0, end up 0")
    yield form("a message of every byte but LF", after(TO_OPENING, b"message " + bytes(
        byte for byte in range(256) if byte != 10)), OPENING_TOLD, "3 16 0 9, end opening 0")


def long_lines():
    for length in (LONGEST_LINE - 1, LONGEST_LINE):
        yield form("a line of %d bytes" % length, after(TO_CONFIRMING, OK_2.ljust(length), b"tick"), CONFIRMING_TOLD,
                   "4 8 0 0, end up 0")
    for length in (LONGEST_LINE + 1, LONGEST_LINE + 16, 65536, 65566, 65567, 131072, 200000):
        yield form("a line of %d bytes" % length, after(TO_CONFIRMING, OK_2.ljust(length), b"tick 20", b"x"),
                   CONFIRMING_TOLD, "line 4 bad, 23 19 3 0, 23 7 0 0, line 6 bad, end waiting 0")
    yield form("the longest message without LF", after(TO_CONFIRMING, OK_2.ljust(LONGEST_LINE)), CONFIRMING_TOLD,
               "4 8 0 0, end up 0")
    yield form("a line too long ends the settings", b"x" * (LONGEST_LINE + 1) + b"\ninterval 20\ntick",
               "line 1 bad, line 2 bad, 1 1 0 0, end connecting 0")
    yield form("a line that is as long as tick in 16 bits", b"tick".ljust(65540) + b"\n" + b"\0" * 65536 + b"\ntick",
               "line 1 bad, line 2 bad, 1 1 0 0, end connecting 0")
    yield form("many lines", b"x\n" * 3000 + b"\n" * 3000 + b"tick\n" * 3000,
               ", ".join("line %d bad" % number for number in range(1, 3001)), "1 1 0 0, end connecting 0")


REPLAY_BY_HAND = (tuple(settings()) + tuple(conduct_settings()) + tuple(conduct_and_interval())
                  + tuple(conduct_after_settings()) + tuple(readings()) + tuple(lines()) + tuple(long_lines()))
