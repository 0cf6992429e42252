"""What the makers of fixed framing vectors share. Everything expected comes from the model in `framing`."""

import zlib

from driver import fill
from framing import PLACES_NEEDED, STORE_NEEDED, gather
from vector_text import Call, Vector

SPELLED = b"ABCDEFG"  # seven different letters, so that bytes laid at a wrong place show


def spelled(length):
    return (SPELLED * (length // len(SPELLED) + 1))[:length]


class Session:
    """Calls over one store, each answered by the model."""

    def __init__(self, name, boundary, store_length=STORE_NEEDED):
        self.name, self.boundary = name, boundary
        self.fill_seed = zlib.crc32(name.encode()) % 1000  # differs from vector to vector, and needs no bookkeeping
        self.store = fill(store_length, self.fill_seed)
        self.calls = []
        self.held = (0, 0)

    def call(self, piece, gathered=None, matched=None, places=PLACES_NEEDED):
        """One call, with the numbers held where none are given. Says how many bytes were taken."""
        gathered = self.held[0] if gathered is None else gathered
        matched = self.held[1] if matched is None else matched
        done = gather(self.boundary, self.store, piece, gathered, matched, places)
        self.calls.append(Call(gathered, matched, places, piece, done.refusal, done.numbers, done.written))
        self.store = done.store
        if done.numbers is None:
            return 0
        self.held = done.numbers[3:]
        return done.numbers[0]

    def feed(self, *pieces):
        """Whole pieces, the untaken rest of each handed in again until it is used up."""
        for piece in pieces:
            taken = self.call(piece)
            while taken < len(piece):
                step = self.call(piece[taken:])
                if step == 0:
                    raise ValueError("%s: bytes are left and none is taken" % self.name)
                taken += step
        return self

    def vector(self):
        return Vector(self.name, self.boundary, len(self.store), self.fill_seed, self.calls)


def fed(name, boundary, *pieces, store_length=STORE_NEEDED):
    return Session(name, boundary, store_length).feed(*pieces).vector()


def single(name, boundary, piece, gathered=0, matched=0, places=PLACES_NEEDED, store_length=STORE_NEEDED):
    session = Session(name, boundary, store_length)
    session.call(piece, gathered, matched, places)
    return session.vector()


def every_cut(name, boundary, stream):
    yield fed(name + "-whole", boundary, stream)
    for place in range(len(stream) + 1):
        yield fed("%s-cut-%d" % (name, place), boundary, stream[:place], stream[place:])
    yield fed(name + "-bytes", boundary, *[stream[i:i + 1] for i in range(len(stream))])


def in_pieces(stream, size):
    return [stream[at:at + size] for at in range(0, len(stream), size)]
