"""Streams for `items` and scripts for `replay` out of the samples of source documents 000 and 004, and what the session
does with a peer that follows 000's tables to the letter. What is printed was worked out by hand, sample by sample.
"""

from listing_cases import HEADER, STOPPED
from paper_000_tables import BOUNDARY_OF_000
from paper_004 import STATUSES, status
from paper_samples import message_and_answer, paper_samples, samples_of_000, samples_of_004
from reader_answer import VALUES, kind_name
from reader_examples_read import OTHER
from session_examples import OPENING_TOLD, UP_TOLD, case, in_confirming, in_opening, in_up, output_of
from session_lines import TO_OPENING, TO_UP, ok, script_of


def listed(samples):
    """A stream of the samples and its listing, from the answers that stand beside the samples."""
    stream, lines = b"##\n", []
    for number, (_, message, answer) in enumerate(samples, 1):
        stream += message + b"##"
        kind = "-" if answer.refusal else kind_name(answer.kind)
        lines.append("%d %d %s %d %d\n" % (number, len(message), kind, answer.refusal, answer.place))
    return stream, HEADER + "".join(lines).encode("ascii") + b"end 0\n"


PAPER_LISTINGS = (
    ("all samples of 000, 7.3", *listed(samples_of_000())),
    ("all samples of 004, 3 and 5", *listed(samples_of_004())),
    ("the boundary of 000, 7.3, is refused", BOUNDARY_OF_000 + b"\n<SessionOk/>" + BOUNDARY_OF_000, STOPPED),
)


def told_in_up(answer):
    """The event of a message in Up while nothing is open (document 01, the three by seven table)."""
    if answer.refusal:
        return "16 0 %d" % answer.refusal
    kind = kind_name(answer.kind)
    if kind == "Ok":
        return "15 0 0"
    if kind == "Advisory":
        return "15 0 0" if answer.values[VALUES.index("inRelationTo")].there else "17 0 0"
    return "13 0 0" if kind == "Request" else "14 0 0"


def all_samples_in_up():
    """A line holds no LF, so the samples of 004's figures stay out."""
    samples = [(message, answer) for _, message, answer in paper_samples() if b"\n" not in message]
    script = script_of(TO_UP) + b"".join(b"message " + message + b"\n" for message, _ in samples)
    told = [UP_TOLD] + ["%d %s" % (call, told_in_up(answer)) for call, (_, answer) in enumerate(samples, 5)]
    return "all samples of 000 and 004 in Up", script, output_of(", ".join(told + ["end up 0"]))


def sample(label):
    return next("message " + message.decode("ascii") for name, message, _ in paper_samples() if name == label)


OPENS, REFUSED = "3 3 2 0, end confirming 0", "3 7 0 0, end waiting 0"


def in_old_opening(name, lines, *told):
    return case(name + " under the old conduct", ("conduct old",) + TO_OPENING + lines, OPENING_TOLD, *told)


def opening_with_each_status():
    """000, Table 3, and 004, 5.7 as printed and corrected: which status opens the session. What 000 and 004 have a
    session do with RedundantSession, it does under the old conduct alone (document 02, M-110)."""
    yield in_opening("000, Table 3: Ok", (sample("000-table-3-Ok"),), OPENS)
    for name in ("VersionMismatch", "ServiceNotReady", "RedundantSession"):
        yield in_opening("000, Table 3: " + name, (sample("000-table-3-" + name), "tick 299", "tick"),
                         "3 7 0 0, 303 1 0 0, end connecting 0")
    yield in_old_opening("000, Table 3: RedundantSession", (sample("000-table-3-RedundantSession"),), OPENS)
    for name, _ in STATUSES:
        message, _ = message_and_answer(*status(b"ena-org", name, OTHER))
        for opening in (in_opening, in_old_opening):
            yield opening("004, 5.7 as printed: " + name.decode(), ("message " + message.decode(),), REFUSED)
    for name, _ in STATUSES:
        line = sample("004-5.7-right-" + name.decode())
        yield in_opening("004, 5.7 corrected: " + name.decode(), (line,), OPENS if name == b"Ok" else REFUSED)
        yield in_old_opening("004, 5.7 corrected: " + name.decode(), (line,),
                             OPENS if name in (b"Ok", b"RedundantSession") else REFUSED)


TYPES_THAT_CLOSE = ("Alert", "GoingOutOfService", "CallTerminated", "appl-x:UnsupportedVersion")


def answers_to_pushes():
    """000, Tables 5 and 6: after the push, number 3 is open, and every sample of Table 6 names 3."""
    for name in TYPES_THAT_CLOSE:
        yield in_up("000, Table 6: %s for a Response" % name, ("push 9", sample("000-table-6-" + name)),
                    "5 4 3 9, 6 10 3 9, end up 0")
    yield in_up("000, Table 6: UnreadableMessage for a Response",
                ("push 9", sample("000-table-6-appl-x:UnreadableMessage"), "tick 20"),
                "5 4 3 9, 6 5 3 9, 26 11 3 9, end up 0")
    yield in_up("000, Table 5: UnreadableMessage with the white space of the table",
                ("push 9", sample("000-table-6-UnreadableMessage-as-in-table-5"), "tick 40"),
                "5 4 3 9, 6 10 3 9, end up 0")
    yield in_up("000, Table 7: an Ok for 999", ("last 998", "push 9", sample("000-table-7-inResponseTo-right")),
                "5 4 999 9, 6 9 999 9, end up 0")


PEER_OF_THE_TABLES = (
    in_confirming("000, Tables 4 and 7: a blank Ok does not bring the session up",
                  (sample("000-table-7-inResponseTo-blank"), "tick 19", "tick", "tick 300"),
                  "4 15 0 0, 24 19 3 0, 24 7 0 0, 324 1 0 0, end connecting 0"),
    in_confirming("000, Tables 4 and 7: an Ok without inResponseTo does not either",
                  (sample("000-table-7-timestamp-closed"), "message <Ok/>", sample("000-table-4-printed"), "tick 20"),
                  "4 16 0 13, 5 16 0 13, 6 16 0 13, 26 19 3 0, 26 7 0 0, end waiting 0"),
    in_confirming("000, 7.4.2: an Ok with the SessionOk's number does", (ok(2),), "4 8 0 0, end up 0"),
    in_up("000, Table 7: a blank Ok leaves the heartbeat open",
          ("tick 100", sample("000-table-7-inResponseTo-blank"), "tick 20"),
          "104 3 3 0, 105 15 0 0, 125 19 4 0, 125 7 0 0, end waiting 0"),
    in_up("000, 7.4.4: GoingOutOfService from the centre is only reported", (
        "message <Advisory><aqs:Advisory><aqs:AdvisoryType>urn:nena-org:dtc:aqs:notif:advisory:GoingOutOfService"
        "</aqs:AdvisoryType></aqs:Advisory></Advisory>", "push 9"), "5 17 0 0, 6 4 3 9, end up 1"),
    in_up("000, 7.4.10: Response, SessionOpenRequest and SessionOk from the centre",
          (sample("000-table-10-inResponseTo-right"), sample("000-table-1-all-right"), sample("000-table-4-right")),
          "5 14 0 0, 6 14 0 0, 7 14 0 0, end up 0"),
    in_up("004, 5.6.1: a session is not closed by messages",
          (sample("004-5.6.1-3-SessionCloseRequest"), sample("004-5.6.1-4-SessionCloseResponse")),
          "5 16 0 13, 6 16 0 13, end up 0"),
    case("000, 7.4.3: ten seconds are 100 ticks", ("interval 100",) + TO_UP + ("tick 99", "tick"), UP_TOLD,
         "104 3 3 0, end up 0"),
)

PAPER_SCRIPTS = ((all_samples_in_up(),) + tuple(opening_with_each_status()) + tuple(answers_to_pushes())
                 + PEER_OF_THE_TABLES)
