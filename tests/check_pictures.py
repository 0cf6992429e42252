#!/usr/bin/env python3
"""Holds the pictures of docs/pictures against the sources and against the program `replay`.

    python3 tests/check_pictures.py PROGRAM [WORD ..]

PROGRAM and the words after it are the command that runs replay, say `tools/x86 run crates/replay/out/replay`. The pictures are made again and compared. What
they show is compared with crates.txt, with the names in the sources, and with what replay prints: each move of the session is gone by its scripts, and
calls of every sort are tried in every state, so that no move is left out. And that they can be read: no text over another, no line through a text or a box.
The last line is 'N passed, M failed'; the exit status is 0 only if nothing failed.
"""
import itertools
import os
import re
import subprocess
import sys
import tempfile
import xml.etree.ElementTree as ElementTree

from reporting import TOP, files, read, report

sys.path.insert(0, os.path.join(TOP, "tools"))

import crates_picture  # noqa: E402
import draw  # noqa: E402
import session_moves  # noqa: E402
import session_picture  # noqa: E402

SVG = "{http://www.w3.org/2000/svg}"
LEAST_SIZE = 15  # leaves 12 where a page shows the picture at four fifths

# Lines that cross and cannot be drawn apart.
CROSSINGS = {frozenset(["items-reader", "replay-framing"]), frozenset(["examples-conduct", "scan-message"])}

# What the boxes name, and where it is.
FUNCTIONS = {
    "crates/framing/src/lib.rt": ["gather"], "crates/reader/src/lib.rt": ["read"], "crates/line/src/gathering.rt": ["ali_gather"],
    "crates/line/src/reading.rt": ["ali_read"], "crates/session/src/lib.rt": ["told", "told_into", "hear", "hear_into"],
}


# ---- the pictures made again

def faults_of_making():
    for name, make in draw.PICTURES.items():
        try:
            same = make() == read(os.path.join(TOP, "docs", "pictures", name))
        except ValueError as fault:
            yield name, [str(fault)]
        else:
            yield name, [] if same else ["is not what tools/draw.py makes"]
    with tempfile.TemporaryDirectory() as folder:
        done = subprocess.run([os.path.join(TOP, "tools", "draw.py"), folder], check=False)
        yield "tools/draw.py", [] if done.returncode == 0 and set(os.listdir(folder)) == set(draw.PICTURES) else ["does not write the pictures"]


# ---- the crates

def above_and_below(lines):
    """Every pair that the lines make, over any number of them."""
    pairs = set(lines)
    while True:
        more = {(a, d) for (a, b), (c, d) in itertools.product(pairs, pairs) if b == c} - pairs
        if not more:
            return pairs
        pairs |= more


def faults_of_crates(picture):
    crates = crates_picture.crates_of(read(os.path.join(TOP, "crates.txt")))
    drawn = {tuple(name.split("-")) for name in groups_of(picture)}
    due = {(name, below) for name in crates for below in crates[name]}
    yield "crates.svg", [] if above_and_below(drawn) == above_and_below(due) else ["does not show what crates.txt says"]
    for line in sorted(drawn):
        needless = line in above_and_below(drawn - {line})
        yield "crates.svg", ["%s on %s follows from other lines" % line] if needless else []
        yield "crates.svg", faults_of_ends(crates_picture.ROUTES[line], crates_picture.CRATES[line[0]][0], crates_picture.CRATES[line[1]][0], line)
    for name in crates:
        yield "crates.svg", [] if name in texts_of(picture) else ["does not name " + name]
    page = read(os.path.join(TOP, "docs", "ARCHITECTURE.md"))
    for name in crates:
        yield "docs/ARCHITECTURE.md", [] if "`%s`" % name in page else ["does not name " + name]
    folders = {os.path.basename(path) for path in files("crates", "*") if os.path.isdir(path)}
    yield "crates.txt", ["and crates/ differ: " + name for name in sorted(folders ^ set(crates))]


def faults_of_functions(picture):
    words = set(re.findall(r"\w+", " ".join(texts_of(picture))))
    for path, names in FUNCTIONS.items():
        source = read(os.path.join(TOP, path))
        for name in names:
            there = re.search(r'pub (extern "C" )?fn %s\(' % name, source) and name in words
            yield "crates.svg", [] if there else ["%s is not in the picture or not in %s" % (name, path)]


# ---- the session

def faults_of_names():
    codes = re.findall(r"^(\w+) = (\d+)$", read(os.path.join(TOP, "crates", "conduct", "specs", "Codes.antt")), re.MULTILINE)
    due = {int(number): name.replace("_", "").lower() for name, number in codes}
    drawn = {number: name.replace(" ", "").lower() for number, name in session_moves.NAMES.items()}
    yield "session.svg", [] if drawn == due else ["the names of events are not those of Codes.antt"]
    states = re.search(r"pub enum State \{(.*?)\n\}", read(os.path.join(TOP, "crates", "conduct", "src", "lib.rt")), re.DOTALL).group(1)
    yield "session.svg", [] if re.findall(r"^    (\w+)", states, re.MULTILINE) == session_moves.STATES else ["the states are not those of conduct"]


def calls_of(lines):
    """How many calls the lines of a script make."""
    calls = [line for line in lines if not line.startswith(session_moves.SETTINGS)]
    return sum(int(line.split()[1]) if line.startswith("tick ") else 1 for line in calls)


class Run:
    """What replay prints for a script, taken apart."""

    def __init__(self, command, lines):
        script = "".join(line + "\n" for line in lines).encode("ascii")
        done = subprocess.run(command, input=script, stdout=subprocess.PIPE, timeout=120, check=True)
        self.printed = done.stdout.decode("ascii").splitlines()
        self.refusals = [line.split()[2] for line in self.printed if " refused " in line]
        self.bad = any(line.endswith(" bad") for line in self.printed)
        self.events = [tuple(map(int, line.split())) for line in self.printed if re.fullmatch(r"\d+ \d+ \d+ \d+", line)]
        self.end = self.printed[-1]

    def after(self, calls):
        """The codes of the events behind so many calls."""
        return tuple(event[1] for event in self.events if event[0] > calls)


def events_due(one, start):
    return one.events + (session_moves.LOST,) * (session_moves.STARTS[start][1] if one.leaves_up else 0)


def end_due(one, start):
    """Where the move leads, as replay says it."""
    if one.last in session_moves.STATES:
        return "end %s %d" % (one.last.lower(), 0 if one.leaves_up else session_moves.STARTS[start][1])
    if one.name == "up-left":
        return "end waiting 0"
    return "end up %d" % (one in session_moves.PUSHES and one.last != session_moves.CLOSED)


def probe_of(one, run):
    """A call that tells places apart that replay's last line does not, and the events due: the 300 ticks of Waiting, whether a SessionOk is open,
    whether a push has a sending left."""
    if one.last == "Waiting":
        return "tick 300", (1,)
    if one in session_moves.HEARTBEAT:
        number = [event[2] for event in run.events if event[1] == 3][-1]
        return session_moves.ok(number), () if one.last == session_moves.AWAITED else (15,)
    again = {session_moves.MORE: (5,), session_moves.SPENT: (10,), session_moves.ADVISORY: (10,), session_moves.CLOSED: (15,)}
    if one in session_moves.PUSHES and run.end.startswith("end up"):
        return session_moves.advisory(3, "UnreadableMessage"), again[one.last]
    return None


def faults_of_trial(command, one, start, lines):
    before, script = session_moves.STARTS[start][0], session_moves.STARTS[start][0] + list(lines)
    run = Run(command, script)
    due, last = events_due(one, start), calls_of(script)
    faults = ["is refused"] if run.refusals or run.bad else []
    if run.after(calls_of(before)) != due or run.after(last - 1) != due:
        faults.append("says %s" % (run.after(calls_of(before)),))
    if run.end != end_due(one, start):
        faults.append("comes to %s" % run.end)
    probe = probe_of(one, run)
    if probe:
        probed = Run(command, script + [probe[0]])
        if probed.after(last) != probe[1] or probed.after(calls_of(script + [probe[0]]) - 1) != probe[1]:
            faults.append("goes on with %s" % (probed.after(last),))
    return ["%s, from %s: %s" % (one.name, start, fault) for fault in faults]


def faults_of_moves(command):
    for one in session_moves.MOVES + session_moves.HEARTBEAT + session_moves.PUSHES + session_moves.STAYS:
        for start, lines in one.trials:
            yield "session.svg", faults_of_trial(command, one, start, lines)


def calls_of_every_sort():
    messages = [session_moves.status(word) for word in ("Ok", "RedundantSession", "VersionMismatch")] + [session_moves.ok(number) for number in (1, 2, 3, 99)]
    messages += [session_moves.advisory(number, word) for number in (None, 2, 3, 99) for word in ("Alert", "UnreadableMessage")]
    messages += [session_moves.REQUEST, session_moves.RESPONSE, session_moves.SESSION_OK, "message <SessionOpenRequest/>", "message ", "message <Ok>"]
    refusals = ["unreadable %d" % number for number in (0, 6, 7, 15)]
    return ["tick", "tick 20", "connected", "lost", "stop", "push 7", "advise 8"] + messages + refusals


def is_drawn(first, before, run):
    """Whether a move of the picture says just this; a call that says nothing and stays needs none."""
    codes, last = run.after(calls_of(before)), run.end.split()[1].capitalize()
    inside = session_moves.HEARTBEAT + session_moves.PUSHES if first == "Up" else []
    moves = [one for one in session_moves.MOVES + session_moves.STAYS if (one.first, one.last) == (first, last)] + [one for one in inside if last == "Up"]
    return (last == first and not codes) or any(one.events == codes for one in moves)


def faults_of_omission(command):
    """Every sort of call in every state: what it does is drawn."""
    starts = [(name, session_moves.STARTS[name][0]) for name in session_moves.STATES]
    starts.append(("Opening", session_moves.STARTS[session_moves.OLD][0]))
    for first, before in starts + [("Up", session_moves.UP + ["tick 99"]), ("Up", session_moves.UP + ["tick 100"]), ("Up", session_moves.UP + ["tick 119"])]:
        for call in calls_of_every_sort():
            run = Run(command, before + [call])
            faults = [] if is_drawn(first, before, run) else ["%s behind %s is not drawn: %s" % (call, before, run.printed)]
            if first == "Stopped" and run.refusals != ["5"] * calls_of([call]):
                faults.append("%s in Stopped is not refused with 5" % call)
            yield "session.svg", faults


def faults_of_bounds(command):
    """The interval, the resends, and the most pushes."""
    for interval, made in [(20, False), (21, True), (6000, True), (6001, False)]:
        end = Run(command, ["interval %d" % interval]).end
        yield "session.svg", [] if end == ("end waiting 0" if made else "stop 4") else ["interval %d: %s" % (interval, end)]
    for resends, made in [(0, True), (3, True), (4, False)]:
        end = Run(command, ["resends %d" % resends]).end
        yield "session.svg", [] if end == ("end waiting 0" if made else "stop 18") else ["resends %d: %s" % (resends, end)]
    for pushes, refusals in [(32, []), (33, ["7"])]:
        run = Run(command, session_moves.UP + ["push %d" % handle for handle in range(pushes)])
        yield "session.svg", [] if run.refusals == refusals and run.end == "end up 32" else ["%d pushes: %s" % (pushes, run.end)]


def faults_of_words(picture):
    """The words of each move stand beside its line, and nothing else is drawn as a move."""
    groups = groups_of(picture)
    moves = session_moves.MOVES + session_moves.HEARTBEAT + session_moves.PUSHES + session_moves.STAYS
    for one in moves:
        words = " ".join("".join(text.itertext()) for group in groups.get(one.name, []) for text in group.iter(SVG + "text"))
        missing = [phrase for phrase in [one.call, *(str(code) for code in one.events)] if phrase not in words]
        yield "session.svg", ["%s does not say %s" % (one.name, phrase) for phrase in missing]
    yield "session.svg", ["%s is no move" % name for name in sorted(set(groups) - {one.name for one in moves})]


def faults_of_places(picture):
    """Each line leaves the box of its first place and comes to that of its last, or to the lane that leads there."""
    lanes = {"Waiting": (session_picture.LEFT, session_picture.HIGH, 0, session_picture.LOW - session_picture.HIGH), "Stopped": (session_picture.RIGHT, session_picture.HIGH, 0, session_picture.LOW - session_picture.HIGH)}
    for one in session_moves.MOVES + session_moves.HEARTBEAT + session_moves.PUSHES:
        points = points_of(groups_of(picture)[one.name][0].find(SVG + "path"))
        ends = [box for box in (session_picture.BOXES.get(one.last), lanes.get(one.last)) if box]
        first = session_picture.BOXES.get(one.first)
        good = (first is None or touches(points[0], first)) and any(touches(points[-1], box) for box in ends)
        yield "session.svg", [] if good else ["the line of %s does not lead from %s to %s" % (one.name, one.first, one.last)]


# ---- what can be read

def groups_of(picture):
    groups = {}
    for group in picture.iter(SVG + "g"):
        for name in group.get("class").split():
            groups.setdefault(name, []).append(group)
    return groups


def texts_of(picture):
    return ["".join(text.itertext()) for text in picture.iter(SVG + "text")]


def points_of(path):
    return [tuple(float(number) for number in point.split()) for point in path.get("d")[1:].split("L")]


def touches(point, box, room=14):
    """Whether a point lies on the border of a box, or as far before it as an arrowhead is long."""
    x, y, width, height = box
    inside = x + 1 < point[0] < x + width - 1 and y + 1 < point[1] < y + height - 1
    return not inside and x - room <= point[0] <= x + width + room and y - room <= point[1] <= y + height + room


def faults_of_ends(points, first, last, line):
    good = touches(points[0], first, 0) and touches(points[-1], last, 0)
    return [] if good else ["the line %s does not lead from box to box" % (line,)]


def width_of(words, size, bold):
    """About as wide as the widest of the usual fonts."""
    em = sum(0.31 if c in "ijlI.,:;'| " else 0.41 if c in "frt()-/" else 0.9 if c in "mwMW" else 0.69 if c.isupper() else 0.62 for c in words)
    return em * size * (1.11 if bold else 1)


def frame_of(text):
    """Left, top, right and bottom of a text."""
    size, words = float(text.get("font-size")), "".join(text.itertext())
    width = width_of(words, size, text.get("font-weight") == "bold")
    left = float(text.get("x")) - {None: 0, "middle": width / 2, "end": width}[text.get("text-anchor")]
    return left, float(text.get("y")) - 0.76 * size, left + width, float(text.get("y")) + 0.2 * size


def meet(one, other):
    return one[0] < other[2] and other[0] < one[2] and one[1] < other[3] and other[1] < one[3]


def strokes_of(picture):
    """Each straight piece of a line and each side of a box, as a frame."""
    for path in picture.iter(SVG + "path"):
        half, points = float(path.get("stroke-width")) / 2, points_of(path)
        for (x0, y0), (x1, y1) in zip(points, points[1:]):
            yield min(x0, x1) - half, min(y0, y1) - half, max(x0, x1) + half, max(y0, y1) + half
    for box in list(picture.iter(SVG + "rect"))[1:]:
        x, y, width, height = (float(box.get(name)) for name in ("x", "y", "width", "height"))
        yield from [(x, y, x + width, y), (x, y + height, x + width, y + height), (x, y, x, y + height), (x + width, y, x + width, y + height)]


def faults_of_texts(name, picture):
    right, bottom = float(picture.get("width")), float(picture.get("height"))
    texts = [("".join(text.itertext()), frame_of(text), float(text.get("font-size"))) for text in picture.iter(SVG + "text")]
    strokes = list(strokes_of(picture))
    for i, (words, frame, size) in enumerate(texts):
        faults = ["%s is too small" % words] if size < LEAST_SIZE else []
        if frame[0] < 0 or frame[1] < 0 or frame[2] > right or frame[3] > bottom:
            faults.append("%s leaves the picture" % words)
        faults += ["a line runs through %s" % words for stroke in strokes if meet(frame, stroke)]
        faults += ["%s and %s overlap" % (words, other) for other, place, _ in texts[i + 1:] if meet(frame, place)]
        yield name, faults


def pieces_of(picture):
    """The straight pieces of the lines of each group."""
    for group in picture.iter(SVG + "g"):
        for path in group.iter(SVG + "path"):
            points = points_of(path)
            yield from ((group.get("class"), one, other) for one, other in zip(points, points[1:]))


def cross(one, other):
    """Whether a level and an upright piece cross, and not only meet."""
    (ax, ay), (bx, by), (cx, cy), (dx, dy) = one[1], one[2], other[1], other[2]
    if ay != by:
        return cy == dy and ax == bx and cross(other, one)
    return cx == dx and min(ax, bx) < cx < max(ax, bx) and min(cy, dy) < ay < max(cy, dy)


def faults_of_crossings(name, picture):
    pairs = itertools.combinations(list(pieces_of(picture)), 2)
    yield name, ["%s crosses %s" % (one[0], other[0]) for one, other in pairs if cross(one, other) and frozenset([one[0], other[0]]) not in CROSSINGS]


def faults_of_boxes(name, picture, boxes):
    """No line runs through a box."""
    for group, (ax, ay), (bx, by) in pieces_of(picture):
        frame = (min(ax, bx), min(ay, by), max(ax, bx), max(ay, by))
        through = [box for box, (x, y, width, height) in boxes.items() if meet(frame, (x + 2, y + 2, x + width - 2, y + height - 2))]
        yield name, ["%s runs through %s" % (group, box) for box in through]


def faults_of_sight():
    crates = {crate: place for crate, (place, _) in crates_picture.CRATES.items()}
    states = {state: place for state, place in session_picture.BOXES.items() if state not in ("Up", session_moves.OPEN)}
    for name, boxes in [("crates.svg", crates), ("session.svg", states)]:
        picture = picture_of(name)
        told = [(picture.find(SVG + part).text or "").strip() for part in ("title", "desc")]
        yield name, [] if all(told) and picture.get("viewBox") else ["has no title, no description or no viewBox"]
        yield from faults_of_texts(name, picture)
        yield from faults_of_crossings(name, picture)
        yield from faults_of_boxes(name, picture, boxes)


def picture_of(name):
    return ElementTree.parse(os.path.join(TOP, "docs", "pictures", name)).getroot()


def all_faults(command):
    yield from faults_of_making()
    crates, session = picture_of("crates.svg"), picture_of("session.svg")
    yield from faults_of_crates(crates)
    yield from faults_of_functions(crates)
    yield from faults_of_names()
    yield from faults_of_moves(command)
    yield from faults_of_omission(command)
    yield from faults_of_bounds(command)
    yield from faults_of_words(session)
    yield from faults_of_places(session)
    yield from faults_of_sight()


if __name__ == "__main__":
    if len(sys.argv) < 2:
        sys.exit(__doc__)
    sys.exit(report(all_faults(sys.argv[1:])))
