"""The text form of the fixed session vectors, one vector a line.

    NAME | SCRIPT | OUTPUT

SCRIPT has the form of the messages in `reader_vector_text`, and \\n for LF. OUTPUT has its lines parted by commas; one
that would be long stands as `lines=COUNT sha256=HEX`.
"""

import hashlib
from typing import NamedTuple

from reader_vector_text import message_to_text, text_to_message

LONGEST_IN_FULL = 300


class Vector(NamedTuple):
    name: str
    script: bytes
    output: str  # as it stands on the line


def script_to_text(script):
    """A backslash of the script is always \\x5c, so that \\n can mean nothing else."""
    return message_to_text(script).replace("\\x0a", "\\n")


def text_to_script(text):
    return text_to_message(text.replace("\\n", "\\x0a"))


def output_to_text(output):
    """What could not be read back from its text, because a program prints oddly, stands as a hash too."""
    in_full = output.decode("latin-1").replace("\n", ", ")[:-2]
    if len(in_full) <= LONGEST_IN_FULL and in_full.replace(", ", "\n").encode("latin-1") + b"\n" == output:
        return in_full
    return "lines=%d sha256=%s" % (output.count(b"\n"), hashlib.sha256(output).hexdigest())


def vector_to_text(vector):
    return "%s | %s | %s" % (vector.name, script_to_text(vector.script), vector.output)


def vector_from_text(line):
    name, rest = line.split(" | ", 1)
    script, output = rest.rsplit(" | ", 1)
    return Vector(name, text_to_script(script), output)
