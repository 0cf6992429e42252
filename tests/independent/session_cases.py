"""Random scripts: the settings, then moves of a writer, some of them more often by the script's style.

    python3 tests/independent/session_cases.py SEED CASE

prints the script of that number, as tests/compare_replay.py runs it.
"""

import random
import sys

from replay_examples import NO_CONDUCTS, NO_RESENDS
from session import CONDUCTS, MOST_RESENDS, UP
from session_lines import script_of
from session_writer import Writer

INTERVALS = (21, 21, 22, 23, 40, 40, 41, 60, 99, 100, 100, 257, 1000, 6000)
REFUSED_INTERVALS = (0, 1, 20, 6001, 65557, 4294967295)
REFUSED_RESENDS = (4, 4, 5, 10, 256, 65539, 4294967295, 4294967296, 4294967297, 4294967299, 18446744073709551617)
REFUSED = {"interval": REFUSED_INTERVALS, "resends": REFUSED_RESENDS}
AFTER_A_REFUSED_MAKING = ("tick", "x", "interval 100", "conduct old", "resends 1", "", "stop")

EVERYDAY = {Writer.wait_for_something: 8, Writer.wait_a_little: 4, Writer.push_some: 8, Writer.answer_push: 6,
            Writer.object_to_push: 2, Writer.object_unreadable: 3, Writer.answer_session_ok: 4, Writer.name_nothing: 2,
            Writer.say_anything: 2, Writer.hand_in: 1, Writer.await_heartbeat: 2, Writer.wear_out: 3}

# What a script does more often than the others.
STYLES = (
    {},
    {Writer.fill_table: 6, Writer.answer_push: 10},
    {Writer.set_last: 8, Writer.push_some: 10},
    {Writer.pass_over: 12, Writer.pass_over_both: 6},
    {Writer.meet_heartbeat: 14},
    {Writer.end_by_timer: 5, Writer.lose: 3, Writer.meet_heartbeat: 3},
    {Writer.object_unreadable: 20, Writer.wait_for_something: 16},
    {Writer.call_anything: 20, Writer.say_anything: 10},
    {Writer.write_badly: 12, Writer.call_anything: 4},
    {Writer.open_again: 12, Writer.set_last: 3},
    {Writer.wear_out: 30, Writer.lose: 3},
)


def interval_line(writer):
    return "interval %d" % (writer.rng.choice(INTERVALS) if writer.chance(0.8) else writer.rng.randint(21, 300))


def write_settings(writer):
    """Settings in any order, each perhaps more than once; now and then a figure that is refused, unless a later line
    gives another, and a line that is no setting and ends them early."""
    rng = writer.rng
    lines = [interval_line(writer) for _ in range(rng.choice((0, 1, 1, 1, 1, 2)))]
    lines += ["conduct " + rng.choice(CONDUCTS) for _ in range(rng.choice((0, 0, 1, 1, 1, 2)))]
    lines += ["resends %d" % rng.randint(0, MOST_RESENDS) for _ in range(rng.choice((0, 1, 1, 1, 1, 2)))]
    rng.shuffle(lines)
    for word in rng.choices(((), ("interval",), ("resends",), ("resends", "interval")), (82, 4, 7, 7))[0]:
        place = rng.randint(0, len(lines)) if writer.chance(0.3) else len(lines)
        lines.insert(place, "%s %d" % (word, rng.choice(REFUSED[word])))
    if writer.chance(0.12):
        lines.insert(rng.randint(0, len(lines)), rng.choice(NO_CONDUCTS + NO_RESENDS).decode("latin-1"))
    for line in lines:
        writer.write(*[""] * rng.choice((0, 0, 0, 1)), line)


def call_before_up(writer):
    """Calls in every state on the way, of which most are refused."""
    while writer.session.state != UP and not writer.is_over():
        for _ in range(writer.rng.randint(0, 4)):
            writer.call_anything()
        writer.advance()


def write_ending(writer):
    """A stop in any state, and what is refused after it."""
    if writer.chance(0.4):
        writer.lose()
        for _ in range(writer.rng.randint(0, 4)):
            writer.advance()
    if writer.chance(0.3):
        writer.set_last()
    writer.write("stop")
    for _ in range(writer.rng.randint(0, 12)):
        writer.rng.choice((writer.call_anything, lambda: writer.write("stop")))()


def random_script(rng, number):
    """The script at a number: its style goes by the number, all else by chance."""
    writer = Writer(rng)
    write_settings(writer)
    if writer.session.refusal:
        writer.write(*rng.choices(AFTER_A_REFUSED_MAKING, k=rng.randint(0, 5)))
        return script_of(writer.lines)
    moves = {**EVERYDAY, **STYLES[number % len(STYLES)]}
    if writer.chance(0.2):
        call_before_up(writer)
    for _ in range(rng.choice((10, 30, 60))):
        if writer.is_over():
            break
        if writer.chance(0.9):
            writer.come_up()
        rng.choices(list(moves), weights=list(moves.values()))[0](writer)
    if writer.chance(0.5):
        write_ending(writer)
    script = script_of(writer.lines)
    return script[:-1] if writer.chance(0.2) else script


def script_numbered(seed, number):
    return random_script(random.Random("%d/%d" % (seed, number)), number)


if __name__ == "__main__":
    sys.stdout.buffer.write(script_numbered(int(sys.argv[1]), int(sys.argv[2])))
