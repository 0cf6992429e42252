"""Lines that several groups of the fixed session vectors are made of."""

from replay_script import Replay
from session_lines import REDUNDANT, TO_CONFIRMING, TO_OPENING, TO_UP, advisory, ok, open_response, unreadable

# After these a fresh session with interval 100 is in the state. In `busy` heartbeat 3 and the pushes 4 and 5 are open.
STATES = {
    "waiting": (), "connecting": ("tick",), "opening": TO_OPENING, "confirming": TO_CONFIRMING, "up": TO_UP,
    "busy": TO_UP + ("tick 100", "push 41", "advise 42"), "full": TO_UP + ("push 41", "advise 42") * 16,
    "stopped": ("stop",),
}
LASTS = (0, 1, 2, 3, 4, 4294967293, 4294967294, 4294967295)

# Each way into Waiting.
WAYS_TO_WAIT = {
    "connecting-lost": ("tick", "lost"), "opening-lost": TO_OPENING + ("lost",),
    "opening-other": TO_OPENING + (open_response(""),), "opening-redundant": TO_OPENING + (REDUNDANT, "lost"),
    "opening-runs-out": TO_OPENING + ("tick 20",), "confirming-lost": TO_CONFIRMING + ("lost",),
    "confirming-advisory": TO_CONFIRMING + (advisory(2),), "confirming-runs-out": TO_CONFIRMING + ("tick 20",),
    "up-lost": TO_UP + ("lost",), "busy-lost": STATES["busy"] + ("lost",),
    "busy-runs-out": STATES["busy"] + ("tick 20",), "full-lost": STATES["full"] + ("lost",),
    "full-runs-out": STATES["full"] + ("tick 120",),
}


def long_life(*settings):
    """Many heartbeats, all answered, and pushes at every distance from them, each with another fate in turn."""
    model, lines = Replay(), []

    def write(*more):
        for line in more:
            lines.append(line)
            model.take_line(line.encode("ascii"))

    write(*settings, *TO_UP)
    for turn in range(40):
        write("push %d" % turn, "advise %d" % (turn + 100), "tick %d" % (turn % 7 + 1))
        fate, session = (ok, advisory, unreadable)[turn % 3], model.session
        write(*(fate(push.number) for push in session.pushes[turn % 4::4]), "tick %d" % (turn % 5 + 1))
        if session.session_ok is not None:
            write((ok, advisory)[turn % 2](session.session_ok))
    return lines
