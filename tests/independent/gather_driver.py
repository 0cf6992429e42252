"""Talks with tests/c/drive_gather.c, whose head describes the requests and replies."""

import struct
from typing import NamedTuple, Tuple

from driver import Program

ALARMS = {
    1: "bytes around the store changed",
    2: "bytes around the answer list changed",
    4: "the boundary, or bytes around it, changed",
    8: "the piece, or bytes around it, changed",
}


class Reply(NamedTuple):
    returned: int
    alarms: int
    answer: Tuple[int, ...]
    change_place: int
    change: bytes


class Driver(Program):
    def __init__(self, command):
        super().__init__(command)
        self.unsent = b""

    def new_store(self, length, seed):
        """Has no reply, so it can wait for the next call."""
        self.unsent += struct.pack("<cII", b"N", length, seed)

    def gather(self, boundary, piece, gathered, matched, places, answer_seed):
        head = struct.pack("<cBIIIBI", b"G", len(boundary), len(piece), gathered, matched, places, answer_seed)
        self.send(head + boundary + piece)
        returned, alarms = struct.unpack("<IB", self.read(5))
        answer = struct.unpack("<%dQ" % places, self.read(8 * places))
        change_place, change_length = struct.unpack("<II", self.read(8))
        return Reply(returned, alarms, answer, change_place, self.read(change_length))

    def whole_store(self):
        self.send(b"W")
        length, = struct.unpack("<I", self.read(4))
        return self.read(length)

    def send(self, request):
        request, self.unsent = self.unsent + request, b""
        super().send(request)
