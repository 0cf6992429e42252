"""The listing program as document 01 ("The listing") has it: `listing(input) -> output`.

The stream is cut whole, by the framing model's second method, and each message is read by the reader's model.
"""

from framing import COUNT_CAP, EMPTY, LONGEST_BOUNDARY, TOO_LONG, items_of_stream
from reader import read_message
from reader_answer import kind_name

HEADER = "item bytes kind refusal place"


def boundary_and_stream(data):
    """The two parts of the input; None where no boundary that will do stands in front."""
    end = data.find(b"\n", 0, LONGEST_BOUNDARY + 1)
    return None if end <= 0 else (data[:end], data[end + 1:])


def line_of_message(number, message):
    answer = read_message(message)
    kind = "-" if answer.refusal else kind_name(answer.kind)
    return "%d %d %s %d %d" % (number, len(message), kind, answer.refusal, answer.place)


def listing(data):
    lines = [HEADER]
    parts = boundary_and_stream(data)
    if parts is None:
        lines.append("stop 1")
    else:
        cut = items_of_stream(*parts)
        for number, item in enumerate((item for item in cut.items if item.kind != EMPTY), 1):
            lines.append("%d - - 8 0" % number if item.kind == TOO_LONG else line_of_message(number, item.message))
        lines.append("end %d" % min(len(cut.waiting), COUNT_CAP))
    return "".join(line + "\n" for line in lines).encode("ascii")
