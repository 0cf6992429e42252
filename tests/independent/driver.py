"""What talking with a driver in tests/c takes: the program at the other end of two pipes, and the fill it knows."""

import functools
import os
import select
import struct
import subprocess

from checks import DriverDied

FILL_PERIOD = 251
PATIENCE_SECONDS = 20  # generous, because the program may run in an emulator


@functools.lru_cache(maxsize=64)
def fill(length, seed):
    """The bytes a driver fills a block of this length with (tests/c/lent_block.h)."""
    state = seed
    period = bytearray()
    for _ in range(FILL_PERIOD):
        state = (state * 1664525 + 1013904223) % 2**32
        period.append(0x80 | state >> 24)
    return (bytes(period) * (length // FILL_PERIOD + 1))[:length]


def filled_answer(places, seed):
    return struct.unpack("<%dQ" % places, fill(8 * places, seed))


def names_of_alarms(names, alarms):
    return ", ".join(name for bit, name in names.items() if alarms & bit)


class Program:
    def __init__(self, command):
        self.process = subprocess.Popen(command, stdin=subprocess.PIPE, stdout=subprocess.PIPE, bufsize=0)
        self.unread = b""

    def send(self, request):
        rest = memoryview(request)
        try:
            while rest:
                rest = rest[self.process.stdin.write(rest):]
        except BrokenPipeError:
            self._report_death()

    def read(self, count):
        parts = [self.unread]
        missing = count - len(self.unread)
        while missing > 0:
            ready, _, _ = select.select([self.process.stdout], [], [], PATIENCE_SECONDS)
            if not ready:
                self.abandon()
                raise DriverDied("no answer in %d s" % PATIENCE_SECONDS)
            part = os.read(self.process.stdout.fileno(), 1 << 18)
            if not part:
                self._report_death()
            parts.append(part)
            missing -= len(part)
        got = b"".join(parts)
        self.unread = got[count:]
        return got[:count]

    def close(self):
        """Ends the program in the ordinary way and gives its exit status."""
        self.process.stdin.close()
        try:
            return self.process.wait(PATIENCE_SECONDS)
        except subprocess.TimeoutExpired:
            self.abandon()
            return "no end in %d s" % PATIENCE_SECONDS

    def abandon(self):
        self.process.kill()
        self.process.wait()

    def _report_death(self):
        raise DriverDied("the driver ended with status %s" % self.process.wait(PATIENCE_SECONDS))
