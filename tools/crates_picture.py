"""The crates: where each stands, how the lines between them run, and the way of a byte. What they stand on is read from crates.txt."""
import os

from picture import THIN, PALE, NAME, Picture

TOP = os.path.dirname(os.path.dirname(os.path.abspath(__file__)))

# x, y, width, height, and what a box says below the name
CRATES = {
    "items": ((620, 24, 200, 54), ["lists the messages"]),
    "replay": ((620, 100, 200, 54), ["a session from a script"]),
    "pace": ((620, 190, 200, 54), ["rounds for the bench"]),
    "line": ((212, 325, 192, 56), ["ali_gather, ali_read"]),
    "framing": ((15, 325, 160, 560), []),
    "reader": ((230, 430, 270, 54), ["read: which of the seven"]),
    "elements": ((230, 520, 120, 52), ["tags, levels"]),
    "values": ((386, 520, 114, 52), ["meanings"]),
    "text": ((230, 608, 270, 52), ["characters, references"]),
    "scan": ((230, 696, 270, 52), ["bytes, classes, names"]),
    "session": ((550, 325, 250, 160), ["the record and its calls:", "told, told_into,", "hear, hear_into"]),
    "rules": ((550, 608, 250, 52), ["of a state, a push, a number"]),
    "texts": ((850, 325, 135, 56), ["fields of a line"]),
    "examples": ((212, 782, 188, 54), ["document 01's twelve"]),
    "conduct": ((550, 782, 250, 54), ["states, rules, events"]),
    "message": ((230, 864, 755, 32), []),
    "laws": ((15, 924, 970, 32), []),
}
# Said in one line, beside the name.
WIDE = {"message": "what a message is: kinds, values, refusals, places", "laws": "definitions and laws that several crates cite"}
LATER = {"examples"}

ROUTES = {
    ("items", "framing"): [(620, 40), (65, 40), (65, 325)],
    ("items", "reader"): [(620, 62), (424, 62), (424, 430)],
    ("items", "texts"): [(820, 51), (955, 51), (955, 325)],
    ("replay", "framing"): [(620, 112), (105, 112), (105, 325)],
    ("replay", "session"): [(620, 142), (604, 142), (604, 325)],
    ("replay", "texts"): [(820, 127), (918, 127), (918, 325)],
    ("pace", "session"): [(720, 244), (720, 325)],
    ("pace", "texts"): [(820, 217), (881, 217), (881, 325)],
    ("line", "framing"): [(212, 367), (175, 367)],
    ("line", "reader"): [(360, 381), (360, 430)],
    ("reader", "elements"): [(290, 484), (290, 520)],
    ("reader", "values"): [(420, 484), (420, 520)],
    ("elements", "text"): [(320, 572), (320, 608)],
    ("values", "text"): [(443, 572), (443, 608)],
    ("text", "scan"): [(443, 660), (443, 696)],
    ("scan", "message"): [(443, 748), (443, 864)],
    ("session", "reader"): [(550, 470), (500, 470)],
    ("session", "rules"): [(675, 485), (675, 608)],
    ("rules", "conduct"): [(675, 660), (675, 782)],
    ("conduct", "message"): [(675, 836), (675, 864)],
    ("texts", "message"): [(918, 381), (918, 864)],
    ("framing", "laws"): [(95, 885), (95, 924)],
    ("message", "laws"): [(607, 896), (607, 924)],
    ("examples", "framing"): [(212, 809), (175, 809)],
    ("examples", "conduct"): [(400, 809), (550, 809)],
}

# y and height of programs and C, code, definitions, laws
LAYERS = [(10, 288), (302, 460), (766, 144), (914, 52)]
STEPS = [
    "read(2) hands the line side a piece of the stream: bytes, cut anywhere.",
    "ali_gather calls gather: it takes bytes up to the end of one item and lays them into the store.",
    "The item is a message: the first bytes of the store. read looks at them where they lie.",
    "Bytes have classes, make names and text, tags and elements; values get their meanings.",
    "The answer: one of seven kinds with its values, or a refusal. ali_read gives it to C as numbers, hear to the session.",
    "Events: a code, a number, a detail. The host sends, connects, disconnects; 9 to 12 tell it that a push is closed.",
]


def crates_of(text):
    """Each crate of crates.txt with those of its crates that it stands on, in the file's order; the kit's own are left out."""
    lines = [line.partition("#")[0].split(":") for line in text.splitlines() if line.partition("#")[0].strip()]
    lines = [(name.split()[0], words.split()) for name, words in lines]  # behind a name stands what the crate is, as staticlib
    names = [name for name, _ in lines]
    return {name: [word for word in words if word in names] for name, words in lines}


def direct(crates):
    """The lines that do not follow from others: a crate is passed over where another that is stood on stands on it."""
    below = {}

    def reach(name):
        if name not in below:
            below[name] = set(crates[name]).union(*[reach(under) for under in crates[name]])
        return below[name]

    return [(name, under) for name in crates for under in crates[name] if not any(under in reach(other) for other in crates[name])]


def check_places(crates, lines):
    """Says what the picture lacks, or has too much."""
    here = {name for name in CRATES if name in crates or name not in LATER}
    due = {ends for ends in ROUTES if set(ends) <= here}
    faults = ["%s has no place" % name for name in crates if name not in CRATES]
    faults += ["there is no crate %s" % name for name in sorted(here) if name not in crates]
    faults += ["%s stands on %s without a line" % ends for ends in lines if ends not in ROUTES]
    faults += ["%s does not stand on %s directly" % ends for ends in sorted(due) if ends not in lines]
    if faults:
        raise ValueError("crates.svg: " + "; ".join(faults))


def draw_layers(picture):
    for y, height in LAYERS:
        picture.rectangle(5, y, 990, height, PALE, "#d5dae0", thick=1)
    picture.text(15, 30, "Programs and C", bold=True, colour=THIN)
    picture.text(905, 590, "Code", "end", bold=True, colour=THIN)
    picture.text(905, 790, "Definitions", "end", bold=True, colour=THIN)


def draw_crates(picture, crates):
    for name in crates:
        place, lines = CRATES[name]
        x, y, width, height = place
        if name in WIDE:
            picture.rectangle(*place)
            picture.text(x + 25, y + 22, name, size=NAME, bold=True)
            picture.text(x + 125, y + 22, WIDE[name])
        elif name == "framing":
            draw_framing(picture, place)
        else:
            picture.box(place, name, lines)


def draw_framing(picture, place):
    """One crate for code and definitions."""
    x, y, width, _ = place
    picture.rectangle(*place)
    picture.text(x + width / 2, y + 200, "framing", "middle", NAME, True)
    for i, line in enumerate(["gather: a stream", "into items"]):
        picture.text(x + width / 2, y + 222 + 20 * i, line, "middle")
    picture.line([(x, 764), (x + width, 764)], "#9aa5b1", 1, 0)
    picture.text(x + width / 2, 808, "its definitions:", "middle")
    picture.text(x + width / 2, 830, "specs/Cutting", "middle")


def draw_outside(picture):
    """What is no crate: the line side in C, and the host, which is not in the repository."""
    picture.box((212, 190, 192, 62), "line side, in C", ["line_side.c, ali_link.h"])
    picture.line([(360, 252), (360, 325)])
    picture.box((444, 180, 144, 72), "the host", ["does what the", "events say"], dashed=True)


def draw_way(picture):
    """The way of a byte, with the numbers of its steps."""
    picture.text(262, 158, "bytes from the line")
    picture.byte((245, 138), (245, 190))
    picture.byte((245, 252), (245, 325))
    picture.byte((212, 346), (175, 346))
    picture.byte((175, 722), (230, 722))
    picture.byte((262, 696), (262, 660))
    picture.byte((262, 608), (262, 572))
    picture.byte((350, 546), (386, 546))
    picture.byte((472, 520), (472, 484))
    picture.byte((500, 446), (550, 446))
    picture.byte((572, 325), (572, 252))
    for number, (x, y) in enumerate([(227, 153), (268, 288), (202, 702), (285, 678), (525, 425), (553, 288)], 1):
        picture.step(x, y, number)


def draw_legend(picture, top):
    for i, words in enumerate(STEPS):
        picture.step(24, top + 26 * i, i + 1)
        picture.text(46, top + 5 + 26 * i, words)
    y = top + 26 * len(STEPS) + 12
    picture.line([(14, y), (64, y)])
    picture.text(74, y + 5, "stands on, directly (the kit's libraries left out)")
    picture.byte((500, y), (550, y))
    picture.text(560, y + 5, "the way of a byte")
    picture.rectangle(730, y - 10, 40, 20, dashed=True)
    picture.text(780, y + 5, "not in this repository")


def crates_picture():
    with open(os.path.join(TOP, "crates.txt"), encoding="utf-8") as file:
        crates = crates_of(file.read())
    lines = direct(crates)
    check_places(crates, lines)
    words = "Boxes in layers: laws at the bottom, then definitions, then code, then programs and C. " + " ".join(
        "%s stands on %s." % (name, ", ".join(under for above, under in lines if above == name)) for name in crates if crates[name])
    picture = Picture(1000, 1170, "The crates of the link box, and the way of a byte", words + " The way of a byte: " + " ".join(STEPS))
    draw_layers(picture)
    for ends in lines:
        with picture.group("%s-%s" % ends):
            picture.line(ROUTES[ends])
    draw_crates(picture, crates)
    draw_outside(picture)
    draw_way(picture)
    draw_legend(picture, 990)
    return picture.whole()
