"""Files of session vectors as they were recorded before a request. Each keeps its meaning under the settings of its
row, which are none where the request changed nothing for a script that does not ask for it. They are never made again:
their bytes are held by a hash.

A setting put in front is a line more, and `line L bad` counts all lines. So what is printed is told as the script alone
would have it, with that many taken away from each L, and then has to be what was recorded, byte for byte.
"""

import hashlib
import os
import re
from typing import NamedTuple, Tuple

from checks import TOP, equal, vectors_of
from replay_script import replay
from resends_sightings import RESENDS_ARE_SAID
from session_lines import script_of
from session_sightings import OPENED_BY_REDUNDANT, WatchedReplay
from session_vector_text import output_to_text, vector_from_text

BAD_LINE = re.compile(rb"^line ([1-9][0-9]*) bad$", re.MULTILINE)


class Captured(NamedTuple):
    file: str  # in tests/vectors
    sha256: str
    vectors: int
    settings: Tuple[str, ...]  # the lines put in front of each script
    otherwise: int  # how many of them answer otherwise without the settings
    sighting: str  # what comes up, under the settings, in just these
    numbering_lines: int  # how many have a `line L bad` in their output


# Of M-110: the fixed vectors of before, and what the program of before printed for the scripts that were written by
# hand and for 48 at random. Of M-105: what it printed for 80 at random; the fixed vectors of before begin
# those of today (`BEGINNINGS`), and the scripts by hand are still there.
CAPTURED = (
    Captured(file="captured/session-before-M-110.txt", vectors=454,
             sha256="250509231d63081013fdc9af867f62e015412e80f295b783f7676cc3875f80a6", settings=("conduct old",),
             otherwise=1, sighting=OPENED_BY_REDUNDANT, numbering_lines=1),
    Captured(file="captured/scripts-before-M-110.txt", vectors=240,
             sha256="c88e73774aa4962e5a9d82036bdb592bf6cf09b4bd8543278ca0aff7065e6285", settings=("conduct old",),
             otherwise=36, sighting=OPENED_BY_REDUNDANT, numbering_lines=30),
    Captured(file="captured/scripts-before-M-105.txt", vectors=80,
             sha256="7c94ec22f62f48edfa7d98583abf0ebace1480e8f892ea40007053a97a52889b", settings=(),
             otherwise=0, sighting=RESENDS_ARE_SAID, numbering_lines=13),
)


class Beginning(NamedTuple):
    request: str
    vectors: int
    sha256: str


# The whole of session.txt before a request that only added to it. A copy would be the same lines a second time, so a
# hash holds them where they are; they are made again, and run, with the others.
VECTORS = "session.txt"
BEGINNINGS = (
    Beginning("M-105", 657, "1e979d2aa2d9d1750bdd2b40911cc31686139c1a5ea742e46aa62fba6f87caf8"),
)


def with_settings(settings, script):
    return script_of(settings) + script


def told_without(settings, output):
    """The output with the lines numbered as if the settings did not stand in front."""
    return BAD_LINE.sub(lambda bad: b"line %d bad" % (int(bad.group(1)) - len(settings)), output)


def captured_vectors(captured):
    return [vector_from_text(line) for line in vectors_of(captured.file)]


def test_bytes(captured):
    with open(os.path.join(TOP, "tests", "vectors", captured.file), "rb") as file:
        equal(hashlib.sha256(file.read()).hexdigest(), captured.sha256, "the hash of " + captured.file)
    equal(len(captured_vectors(captured)), captured.vectors, "vectors of " + captured.file)


def test_beginning(beginning):
    lines = vectors_of(VECTORS)[:beginning.vectors]
    equal(hashlib.sha256("".join(line + "\n" for line in lines).encode("ascii")).hexdigest(), beginning.sha256,
          "the hash of the first %d lines of %s" % (beginning.vectors, VECTORS))


def test_vector(captured, vector):
    output = replay(with_settings(captured.settings, vector.script))
    equal(output_to_text(told_without(captured.settings, output)), vector.output, vector.name)


def test_what_answers_otherwise(captured):
    vectors = captured_vectors(captured)
    otherwise = [vector.name for vector in vectors if output_to_text(replay(vector.script)) != vector.output]
    equal(len(otherwise), captured.otherwise, "how many answer otherwise without the settings")
    equal([vector.name for vector in vectors if meets(captured, vector)], otherwise, captured.sighting)


def meets(captured, vector):
    watched = WatchedReplay()
    watched.run(with_settings(captured.settings, vector.script))
    return watched.seen[captured.sighting] > 0


def test_lines_numbered(captured):
    """Counted in what the model prints, since a hash does not show it."""
    numbering = [vector.name for vector in captured_vectors(captured)
                 if BAD_LINE.search(replay(with_settings(captured.settings, vector.script)))]
    equal(len(numbering), captured.numbering_lines, "vectors with a bad line")


def test_told_without():
    for settings, output, expected in (
            ((), b"line 7 bad\n", b"line 7 bad\n"),
            (("a",), b"1 1 0 0\nline 10 bad\nline 2 bad\nend up 0\n", b"1 1 0 0\nline 9 bad\nline 1 bad\nend up 0\n"),
            (("a", "b"), b"line 1 bad\nline 3 bad\n", b"line -1 bad\nline 1 bad\n"),
            (("a",), b"line 07 bad\nline 7 bad \nLine 7 bad\nline 7 bad\r\n", b"line 07 bad\nline 7 bad \nLine 7 bad\n"
             b"line 7 bad\r\n")):
        equal(told_without(settings, output), expected, "lines numbered without %d settings" % len(settings))


def captured_tests():
    """Names and calls of the model's tests on all captured files."""
    yield "lines numbered without settings", test_told_without
    for beginning in BEGINNINGS:
        yield "%s before %s" % (VECTORS, beginning.request), lambda beginning=beginning: test_beginning(beginning)
    for captured in CAPTURED:
        name = os.path.basename(captured.file)
        yield name + ": bytes", lambda captured=captured: test_bytes(captured)
        yield name + ": what answers otherwise", lambda captured=captured: test_what_answers_otherwise(captured)
        yield name + ": lines numbered", lambda captured=captured: test_lines_numbered(captured)
        for vector in captured_vectors(captured):
            yield "%s: %s" % (name, vector.name), (
                lambda captured=captured, vector=vector: test_vector(captured, vector))
