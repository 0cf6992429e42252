#!/usr/bin/env python3
"""Holds the evening of samples/ together: its files, what the programs print for them, and the page that explains every line.

    python3 tests/check_evening.py [--seed S]

It makes the files again; runs the programs `items` and `replay` on them, from a file, byte by byte and in random pieces, and the independent program;
sees that the script hands in exactly what the stream holds, item by item; and reads docs/AN-EVENING.md, whose tables must quote every line of both
outputs, in order, with the right times, and whose counts must be those of the outputs.
The last line is 'N passed, M failed'; the exit status is 0 only if nothing failed.
"""
import argparse
import collections
import os
import random
import re
import subprocess
import sys
import tempfile

from reporting import TOP, read, report

sys.path.insert(0, os.path.join(TOP, "tests", "independent"))

from listing import listing  # noqa: E402
from programs import cut_at_random, first_differing_line, output_of_file, output_through_pipe  # noqa: E402
from replay_script import replay  # noqa: E402

PAGE = "docs/AN-EVENING.md"
PIECES = 40
LONGEST_MESSAGE = 65520
FIRST_HOUR = 19
CLOSINGS = (9, 10, 11, 12)
FATES = {"Heard": 9, "Objected to": 10, "Unheard": 11, "Lost": 12, "Not taken": None}

STEP_ROW = re.compile(r"^\| (\d\d:\d\d:\d\d\.\d) \| `([^`]+)` \| ([^|]*\w[^|]*) \| ([^|]*\w[^|]*) \|$", re.MULTILINE)
ITEM_ROW = re.compile(r"^\| `([^`]+)` \| ([^|]*\w[^|]*) \| ([^|]*\w[^|]*) \|$", re.MULTILINE)
CODE_ROW = re.compile(r"^\| (\d+) \| [^|]*\w[^|]* \| [^|]+ \| [^|]+ \| (\d+) \|$", re.MULTILINE)
REASON_ROW = re.compile(r"^\| (\d+) \| [^|]*\w[^|]* \| (\d+) \|$", re.MULTILINE)
FATE_ROW = re.compile(r"^\| (%s) \| (\d+) \| ([\d, ]+) \|" % "|".join(FATES), re.MULTILINE)
HANDED_OVER = re.compile(r"handed (\d+) things over to the box: (\d+) records,[^.]* and (\d+) notices,[^.]*\(([\d, ]+)\)")
TIME = re.compile(r"\d\d:\d\d:\d\d\.\d")
SEARCH = re.compile(r"^    \$ (.*) \| grep '([^']+)'\n((?:    .*\n)+)", re.MULTILINE)
# What is searched on the page, and where what it prints stands; check_samples.sh holds the programs to those of no evening.
SEARCHED = {
    "./box items < samples/evening.input": "evening.items", "./box replay < samples/evening.txt": "evening.out",
    "./box replay < samples/satellite.txt": "satellite.1.out", "{ echo resends 3; cat samples/satellite.txt; } | ./box replay": "satellite.3.out",
    "./box replay < samples/together.txt": "together.out",
}
QUOTED = re.compile(r"`([^`]+)`")


def sample(name):
    with open(os.path.join(TOP, "samples", name), "rb") as file:
        return file.read()


def lines_of(name):
    return sample(name).decode("ascii").splitlines()


def difference(given, expected):
    return [] if given == expected else [first_differing_line(given, expected)]


def lists_differ(given, expected):
    return difference("".join(line + "\n" for line in given).encode(), "".join(line + "\n" for line in expected).encode())


# The files, and what the programs print for them.

def faults_of_making():
    with tempfile.TemporaryDirectory() as folder:
        subprocess.run([sys.executable, os.path.join(TOP, "samples", "make_evening.py"), folder], check=True)
        for name in ("evening.input", "evening.items", "evening.txt"):
            with open(os.path.join(folder, name), "rb") as file:
                yield "samples/%s made again" % name, difference(file.read(), sample(name))


def faults_of_run(run, expected):
    output, status = run
    return difference(output, expected) + (["exit status %d" % status] if status else [])


def faults_of_program(name, model, given, expected, rng):
    command = [os.path.join(TOP, "tools", "x86"), "run", os.path.join(TOP, "crates", name, "out", name)]
    data, due = sample(given), sample(expected)
    yield "independent program on %s" % given, difference(model(data), due)
    yield "%s < samples/%s" % (name, given), faults_of_run(output_of_file(command, data), due)
    single = [bytes([byte]) for byte in data]
    yield "%s byte by byte" % name, faults_of_run(output_through_pipe(command, single, os.O_DIRECT), due)
    yield "%s in pieces" % name, faults_of_run(output_through_pipe(command, cut_at_random(rng, data, PIECES)), due)


# How the two inputs fit. The stream is cut here once more, and the script is walked through with a clock.

def items_of_stream():
    """The items that are not empty, and what waits at the end. A split is at the leftmost, non-overlapping occurrences."""
    boundary, stream = sample("evening.input").split(b"\n", 1)
    *items, waiting = stream.split(boundary)
    return [item for item in items if item], waiting


def handing_in(item, listed):
    """The line of the script that hands in an item that is listed so."""
    refusal = listed.split()[3]
    return b"message " + item if refusal == "0" else b"unreadable " + refusal.encode("ascii")


def faults_of_fit():
    items, waiting = items_of_stream()
    listed = lines_of("evening.items")
    handed = [line for line in sample("evening.txt").split(b"\n") if re.match(rb"message |unreadable ", line)]
    yield "as many items as lines", [] if len(items) == len(listed) - 2 == len(handed) else [
        "%d items, %d listed, %d handed in" % (len(items), len(listed) - 2, len(handed))]
    for number, (item, line, given) in enumerate(zip(items, listed[1:], handed), 1):
        length = "-" if len(item) > LONGEST_MESSAGE else str(len(item))
        yield "item %d, listed" % number, [] if line.split()[:2] == [str(number), length] else [line]
        yield "item %d, handed in" % number, [] if given == handing_in(item, line) else ["%.80r" % given]
    yield "what waits", [] if listed[-1] == "end %d" % len(waiting) else [listed[-1]]


def clock_and_calls():
    """The tenths of seconds at which each call is made, by its number, and the numbers of the calls that hand in an item, in order."""
    clock, handings, tenths = {}, [], 0
    for line in sample("evening.txt").decode("ascii").splitlines():
        words = line.split(" ", 2)
        if not line or words[0] == "interval":
            continue
        for _ in range(int(words[1]) if words[0] == "tick" and words[1:] else 1):
            tenths += words[0] == "tick"
            clock[len(clock) + 1] = tenths
        if words[0] in ("message", "unreadable"):
            handings.append(len(clock))
    return clock, handings


def as_time(tenths):
    return "%02d:%02d:%02d.%d" % (FIRST_HOUR + tenths // 36000, tenths // 600 % 60, tenths // 10 % 60, tenths % 10)


def events():
    """Call, code, number and detail of each event of the evening."""
    return [tuple(map(int, line.split())) for line in lines_of("evening.out") if re.fullmatch(r"\d+ \d+ \d+ \d+", line)]


# What the page says.

def faults_of_steps(page):
    clock, _ = clock_and_calls()
    last = max(clock.values())
    rows, output = STEP_ROW.findall(page), lines_of("evening.out")
    yield "every line of evening.out, in order", lists_differ([row[1] for row in rows], output)
    for (time, line, _, _), due in zip(rows, output):
        call = due.split()[0]
        tenths = clock.get(int(call), last) if call.isdigit() else last
        yield "time of `%s`" % line, [] if time == as_time(tenths) else ["%s, expected %s" % (time, as_time(tenths))]
    strange = set(TIME.findall(page)) - {row[0] for row in rows}
    yield "times in the text", ["no line of %s" % time for time in sorted(strange)]


def faults_of_items(page):
    rows, listed, output = ITEM_ROW.findall(page), lines_of("evening.items"), lines_of("evening.out")
    yield "every line of evening.items, in order", lists_differ([row[0] for row in rows], listed)
    for (line, _, effect), call in zip(rows[1:-1], clock_and_calls()[1]):
        due = [one for one in output if one.startswith("%d " % call)]
        yield "what `%s` led to" % line, lists_differ(QUOTED.findall(effect), due)


def faults_of_counts(page):
    """Codes with how often each came, and reasons: refused calls, and the details of event 16."""
    codes = collections.Counter(event[1] for event in events())
    told = [(int(code), int(many)) for code, many in CODE_ROW.findall(page)]
    yield "the 19 codes", [] if told == [(code, codes[code]) for code in range(1, 20)] else ["the page has %s" % told]
    reasons = collections.Counter(event[3] for event in events() if event[1] == 16)
    reasons.update(int(line.split()[2]) for line in lines_of("evening.out") if line.split()[1] == "refused")
    told = [(int(reason), int(many)) for reason, many in REASON_ROW.findall(page)]
    yield "the reasons", [] if told == [(reason, reasons[reason]) for reason in range(5, 15)] else ["the page has %s" % told]


def handles_after(word):
    handles = re.findall(r"^%s (\d+)$" % word, sample("evening.txt").decode("ascii"), re.MULTILINE)
    return sorted(set(map(int, handles)))


def fates():
    """The handles by the last closing of each; None has those that never got one."""
    last = {handle: None for handle in handles_after("push") + handles_after("advise")}
    last.update((detail, code) for _, code, _, detail in events() if code in CLOSINGS)
    return {fate: sorted(handle for handle in last if last[handle] == fate) for fate in FATES.values()}


def faults_of_fates(page):
    records, notices = handles_after("push"), handles_after("advise")
    due = (len(records) + len(notices), len(records), len(notices), *notices)
    told = tuple(int(number) for groups in HANDED_OVER.findall(page) for text in groups for number in re.findall(r"\d+", text))
    yield "what was handed over", [] if told == due else ["the page has %s, expected %s" % (told, due)]
    rows = FATE_ROW.findall(page)
    yield "the fates", lists_differ([row[0] for row in rows], list(FATES))
    for name, many, handles in rows:
        due = fates()[FATES[name]]
        told = [int(handle) for handle in handles.split(", ")]
        yield name, [] if told == due and int(many) == len(due) else ["%s %s, expected %s" % (many, told, due)]


def faults_of_searches(page):
    searches = SEARCH.findall(page)
    yield "searches on the page", [] if len(searches) > 2 else ["only %d" % len(searches)]
    for command, pattern, shown in searches:
        found = [line for line in lines_of(SEARCHED[command]) if re.search(pattern, line)] if command in SEARCHED else []
        faults = lists_differ(re.findall(r"^    (.*)$", shown, re.MULTILINE), found)
        yield "grep '%s'" % pattern, faults + ([] if command in SEARCHED else ["searches what is not known: " + command])
    missing = [command for command in SEARCHED if command not in {one[0] for one in searches}]
    yield "all is searched", ["not on the page: " + command for command in missing]


def faults_of_long_message(page):
    """What the page says of the one item that is too long, and of what 16 bits would have made of its length."""
    long = [item for item in items_of_stream()[0] if len(item) > LONGEST_MESSAGE]
    yield "one long message", [] if len(long) == 1 else ["%d of them" % len(long)]
    for item in long:
        kept = len(item) % 2**16
        for words in ("a message of {:,} bytes. It objected".format(len(item)), "Of {:,} bytes it counted {}.".format(len(item), kept),
                      "the other {:,} bytes".format(len(item) - kept)):
            yield words, [] if words in page else ["not on the page"]
        yield "where it is cut off", [] if item[:kept].count(b"\n") == 1 else ["not in the second line"]


def labelled(prefix, checked):
    return [("%s: %s" % (prefix, label), faults) for label, faults in checked]


def all_faults(rng):
    page = read(os.path.join(TOP, PAGE))
    yield from faults_of_making()
    yield from faults_of_program("items", listing, "evening.input", "evening.items", rng)
    yield from faults_of_program("replay", replay, "evening.txt", "evening.out", rng)
    yield from labelled("fit", faults_of_fit())
    for faults in (faults_of_steps, faults_of_items, faults_of_counts, faults_of_fates, faults_of_searches, faults_of_long_message):
        yield from labelled(PAGE, faults(page))


if __name__ == "__main__":
    parser = argparse.ArgumentParser(description="Holds the evening of samples/ together.")
    parser.add_argument("--seed", type=int, default=1, help="chooses the random pieces")
    seed = parser.parse_args().seed
    print("seed %d" % seed)
    sys.exit(report(all_faults(random.Random(seed))))
