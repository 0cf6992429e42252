"""Runs of a program whose reads or writes fail: each answers with its output, its exit status and its standard error."""

import os
import resource
import socket
import subprocess
import tempfile

from checks import equal
from programs import PATIENCE_SECONDS


def ended(command, stdin=subprocess.DEVNULL, stdout=subprocess.PIPE, before=None):
    """Signals that Python ignores stay ignored, so that a write to a broken pipe fails and does not kill."""
    done = subprocess.run(command, stdin=stdin, stdout=stdout, stderr=subprocess.PIPE, timeout=PATIENCE_SECONDS, check=False,
                          preexec_fn=before, restore_signals=False)
    return done.stdout, done.returncode, done.stderr


def with_descriptor_closed(command, closing):
    return ended(("sh", "-c", 'exec "$@" ' + closing, "sh", *command))


def onto_full_device(command):
    with open("/dev/full", "wb") as full:
        return ended(command, stdout=full)


def into_broken_pipe(command):
    out, into = os.pipe()
    os.close(out)
    with open(into, "wb") as broken:
        return ended(command, stdout=broken)


def onto_file_that_may_not_grow(command, data):
    """The first 40 bytes are written, the others are not."""
    with tempfile.TemporaryFile() as given, tempfile.TemporaryFile() as taken:
        given.write(data)
        given.seek(0)
        _, status, said = ended(command, given, taken, lambda: resource.setrlimit(resource.RLIMIT_FSIZE, (40, 40)))
        taken.seek(0)
        return taken.read(), status, said


def from_folder(command):
    folder = os.open(os.path.dirname(os.path.abspath(__file__)), os.O_RDONLY | os.O_DIRECTORY)
    try:
        return ended(command, folder)
    finally:
        os.close(folder)


def from_reset_socket(command, data):
    """What was sent is read first; then, as this end closed with bytes unread, a read fails."""
    near, far = socket.socketpair()
    with near, far:
        far.sendall(b"unread")
        near.sendall(data)
        near.close()
        return ended(command, far)


def run_cut_off(tally, command, cases):
    """Programs without an exit status: what was complete before the failure is printed, and no last line makes it look whole.

    A case is its name, what is done, and standard output where it can be seen."""
    tally.begin("reads and writes that fail")
    for name, run, expected in cases:
        tally.run(name, lambda: check_cut_off(run(command), expected))
    tally.end()


def check_cut_off(run, expected):
    output, status, said = run
    equal((status, said), (0, b""), "exit status and standard error")
    if expected is not None:
        equal(output, expected, "standard output")
