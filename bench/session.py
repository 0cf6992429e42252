#!/usr/bin/env python3
"""session.py: the time of one call of the session with 32 pushes open, by the program `pace`.

Each figure is the time of a run of many rounds less that of a run of none, by the rounds. A table with the best and the
median of several runs, in nanoseconds a call.
"""
import os
import resource
import statistics
import subprocess

TOP = os.path.dirname(os.path.dirname(os.path.abspath(__file__)))
COMMAND = [os.path.join(TOP, "tools", "x86"), "run", os.path.join(TOP, "crates", "pace", "out", "pace")]
ROUNDS = 2000000
RUNS = 7
OPEN_AFTER = {"tick": b"32", "ok": b"16"}  # the rounds end where a stretch of 16 does


def processor_seconds(call, rounds):
    before = resource.getrusage(resource.RUSAGE_CHILDREN).ru_utime
    done = subprocess.run(COMMAND, input=b"%s %d" % (call.encode(), rounds), stdout=subprocess.PIPE, check=True)
    if rounds and done.stdout != OPEN_AFTER[call]:
        raise SystemExit("session.py: after %d rounds of %s: %r" % (rounds, call, done.stdout))
    return resource.getrusage(resource.RUSAGE_CHILDREN).ru_utime - before


def nanoseconds(call):
    return (processor_seconds(call, ROUNDS) - processor_seconds(call, 0)) / ROUNDS * 1e9


print("| call, 32 pushes open | best ns | median ns |")
print("|---|---|---|")
for name in OPEN_AFTER:
    times = sorted(nanoseconds(name) for _ in range(RUNS))
    print("| %s | %.0f | %.0f |" % (name, times[0], statistics.median(times)))
