"""The session: where its states and moves are drawn."""
from xml.sax.saxutils import escape

from picture import INK, THIN, SAID, PALE, SMALL, NAME, Picture
from session_moves import ADVISORY, AWAITED, CLOSED, HEARTBEAT, MORE, MOVES, NONE, OPEN, PUSHES, SPENT, STAYS, named, said

BOXES = {
    "Waiting": (470, 46, 200, 66), "Connecting": (470, 186, 200, 60), "Opening": (470, 330, 200, 170), "Confirming": (470, 590, 200, 180),
    "Up": (40, 930, 920, 506), "Stopped": (860, 262, 130, 64),
    NONE: (60, 1022, 200, 96), AWAITED: (744, 1022, 196, 96),
    MORE: (204, 1168, 246, 54), SPENT: (204, 1292, 246, 54), ADVISORY: (204, 1358, 246, 54),
    OPEN: (192, 1158, 270, 264), CLOSED: (838, 1158, 106, 264),
}
INSIDE = {"Waiting": ["300 ticks; at first 1"], "Connecting": ["no timer"], "Stopped": ["refusal 5"]}
# The lanes back to Waiting and on to Stopped, and their ends.
LEFT, RIGHT, HIGH, LOW = 22, 925, 92, 904

FORWARD = [("connect", 146), ("connected", 280), ("answered", 547), ("confirmed", 798)]
BACK = [
    ("connecting-lost", 216), ("opening-lost", 370), ("opening-refused", 424), ("opening-late", 478),
    ("confirming-lost", 634), ("confirming-advised", 690), ("confirming-late", 746),
]
STOPS = [("waiting-stop", HIGH), ("connecting-stop", 216), ("opening-stop", 424), ("confirming-stop", 690)]


def wrapped(words, wide):
    """The words in lines of at most so many letters, with commas between."""
    lines = [words[0]]
    for word in words[1:]:
        if len(lines[-1]) + len(word) + 2 > wide:
            lines[-1] += ","
            lines.append(word)
        else:
            lines[-1] += ", " + word
    return lines


def draw_words(picture, x, y, one, wide=99):
    """What is called and what is said, above the height y."""
    lines = wrapped(said(one), wide)
    picture.text(x, y - 7 - 19 * len(lines), one.call)
    for i, line in enumerate(lines):
        picture.text(x, y - 7 - 19 * (len(lines) - 1 - i), line, colour=SAID)


def draw_both(picture, x, y, *moves):
    """What is called and what is said, in one line."""
    words = "; ".join('%s: <tspan fill="%s">%s</tspan>' % (escape(one.call), SAID, escape(", ".join(said(one)))) for one in moves)
    picture.parts.append('<text x="%g" y="%g" font-size="%d" fill="%s">%s</text>' % (x, y, SMALL, INK, words))


def draw_states(picture):
    for name in ["Waiting", "Connecting", "Stopped"]:
        picture.box(BOXES[name], name, INSIDE[name])
    for name in ["Opening", "Confirming"]:
        stays = [one for one in STAYS if one.first == name]
        with picture.group(" ".join(one.name for one in stays)):
            picture.box(BOXES[name], name, ["20 ticks", "stays on"] + ["%s: %d" % (one.call, one.events[0]) for one in stays])
    stays = [one for one in STAYS if one.first == "Up"]
    picture.rectangle(*BOXES["Up"])
    picture.text(60, 960, "Up", size=NAME, bold=True)
    with picture.group(" ".join(one.name for one in stays)):
        for i, some in enumerate([stays[:3], stays[3:]]):
            draw_both(picture, 110, 960 + 19 * i, *some)


def draw_forward(picture):
    picture.dot(570, 14)
    picture.line([(570, 14), (570, 46)], INK)
    picture.text(586, 26, "made with an interval of 21 to 6,000 ticks")
    picture.text(LEFT, 20, "On each line: what is called or heard,")
    picture.text(LEFT, 39, "then the events said, by code and name.")
    for name, y in FORWARD:
        one = named(name)
        _, top, _, height = BOXES[one.first]
        with picture.group(name):
            picture.line([(570, top + height), (570, BOXES[one.last][1])], INK, 2, 11)
            calls = wrapped(one.call.split(", "), 30)
            for i, words in enumerate(calls + said(one)):
                picture.text(586, y + 19 * (i - len(calls) + 1), words, colour=INK if i < len(calls) else SAID)


def draw_back(picture):
    """The ways back to Waiting, on the left."""
    for name, y in BACK:
        with picture.group(name):
            picture.line([(470, y), (LEFT, y)], head=0)
            draw_words(picture, LEFT + 14, y, named(name))
    for name, x, y in [("up-lost", 450, 826), ("up-late", 430, LOW)]:
        with picture.group(name):
            picture.line([(x, 930), (x, y), (LEFT, y)], head=0)
            draw_words(picture, LEFT + 14, y, named(name), 45)
    picture.line([(LEFT, LOW), (LEFT, HIGH), (470, HIGH)])
    picture.text(LEFT + 14, 85, "back to Waiting: 300 ticks")


def draw_stops(picture):
    """The ways to Stopped, on the right."""
    for name, y in STOPS:
        with picture.group(name):
            picture.line([(670, y), (RIGHT, y)], head=0)
            draw_words(picture, 684, y, named(name), 30)
    with picture.group("up-stop"):
        picture.line([(690, 930), (690, LOW), (RIGHT, LOW)], head=0)
        draw_words(picture, 700, LOW, named("up-stop"), 30)
    picture.line([(RIGHT, HIGH), (RIGHT, 262)])
    picture.line([(RIGHT, LOW), (RIGHT, 326)])


def draw_heartbeat(picture):
    top = BOXES[NONE][1]
    picture.text(60, top - 12, "Its heartbeat", bold=True, colour=THIN)
    picture.box(BOXES[NONE], NONE, ["interval ticks"])
    picture.box(BOXES[AWAITED], AWAITED, ["20 ticks"])
    with picture.group("heartbeat"):
        picture.line([(260, top + 30), (744, top + 30)])
        draw_both(picture, 272, top + 23, named("heartbeat"))
    with picture.group("heartbeat-ok heartbeat-advised"):
        picture.line([(744, top + 84), (260, top + 84)])
        draw_both(picture, 272, top + 58, named("heartbeat-ok"))
        draw_both(picture, 272, top + 77, named("heartbeat-advised"))


def draw_pushes(picture):
    top = BOXES[OPEN][1]
    picture.text(60, top - 8, "Each push, at most 32 open", bold=True, colour=THIN)
    picture.rectangle(*BOXES[OPEN], fill=PALE, stroke=THIN, thick=1)
    for name, words in [(MORE, "20 ticks; 0 to 3 resends"), (SPENT, "20 ticks"), (ADVISORY, "20 ticks")]:
        picture.box(BOXES[name], name, [words])
    picture.box(BOXES[CLOSED], CLOSED, ["its room is", "free again"])
    for name, y in [("push", 1206), ("advise", 1386)]:
        with picture.group(name):
            picture.line([(50, y), (204, y)])
            draw_words(picture, 54, y, named(name))
    with picture.group("again-late again-unreadable"):
        picture.line([(216, 1222), (216, 1292)])
    with picture.group("more-late more-unreadable"):
        picture.line([(390, 1222), (390, 1238), (436, 1238), (436, 1222)])
    with picture.group("again-late again-unreadable more-late more-unreadable"):
        late, unreadable = named("again-late"), named("again-unreadable")
        for i, (words, colour) in enumerate([(late.call + ", or", INK), (unreadable.call, INK), (said(late)[0], SAID)]):
            picture.text(226, 1243 + 19 * i, words, colour=colour)


def draw_closings(picture):
    with picture.group("more-ok more-advised"):
        picture.line([(450, 1206), (838, 1206)])
        draw_both(picture, 474, 1180, named("more-ok"))
        draw_both(picture, 474, 1199, named("more-advised"))
    with picture.group("ok advised late"):
        picture.line([(450, 1319), (478, 1319), (478, 1352), (838, 1352)])
        picture.line([(450, 1376), (478, 1376), (478, 1352)], head=0)
        for i, name in enumerate(["ok", "advised", "late"]):
            draw_both(picture, 490, 1307 + 19 * i, named(name))
    with picture.group("up-left"):
        picture.line([(462, 1406), (838, 1406)])
        draw_both(picture, 490, 1399, named("up-left"))


def leaves(one):
    """Where a move begins. What a Response that has no sending left and an Advisory have in common is drawn once."""
    shared = one.first == SPENT and any(start == ADVISORY for start, _ in one.trials)
    return "%s, or %s" % (SPENT, ADVISORY) if shared else one.first or "Up"


def session_words():
    """The whole picture in words."""
    words = ["%s, to %s: %s; %s." % (leaves(one), one.last, one.call, ", ".join(said(one))) for one in MOVES + HEARTBEAT + PUSHES]
    return " ".join(words + ["%s, stays: %s; %s." % (one.first, one.call, ", ".join(said(one))) for one in STAYS])


def session_picture():
    picture = Picture(1000, 1446, "The states of the session, its heartbeat and the life of a push", session_words())
    draw_states(picture)
    draw_forward(picture)
    draw_back(picture)
    draw_stops(picture)
    draw_heartbeat(picture)
    draw_pushes(picture)
    draw_closings(picture)
    return picture.whole()
