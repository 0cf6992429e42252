"""Where each example of the page about interfaces and of source documents 000 and 004 is run; rows as in `paper_index_01`."""

from paper_000_body import ALI_ROWS, BELL_ROWS

GATHER = ("ali_gather", (
    ("refusals in the order 3, 1, 2, 26", "framing:order-*"),
    ("place 0, bytes taken; 3 and 4, g and m", "framing:example-aa-*", "framing:example-aab-*"),
    ("place 1: none yet, empty, message, too long", "framing:example-listing-whole", "framing:limit-k2-65521-whole"),
    ("place 2: the length of a message, else 0", "framing:limit-k2-65520-whole", "framing:limit-k2-65521-whole"),
    ("five places written and no other", "framing:edge-places-40", "framing:edge-places-64"),
))

READ = ("ali_read", (
    ("returns 0 or 3", "reader call:answer list of 39 places", "reader call:answer list of 40 places"),
    ("places 0 and 1: a refusal and its place", "reader:listing-2", "reader:refused-level-33-name"),
    ("place 2: kinds 1 to 7", "reader:read-open-request", "reader:read-open-response", "reader:read-session-ok",
     "reader:read-ok", "reader:read-advisory", "reader:read-request", "reader:read-response"),
    ("value 0, status: 1, 2, 0", "reader:read-open-response", "reader:read-status-redundant", "reader:read-status-empty"),
    ("value 1, ID: of SessionOk, of a Request", "reader:read-session-ok", "reader:read-request"),
    ("value 2, inResponseTo: of Ok, of a Response", "reader:read-ok", "reader:read-response"),
    ("value 3, inRelationTo; value 4, type: 1, 0", "reader:read-advisory", "reader:read-type-alert"),
    ("a number named, or none", "reader:read-number-last", "reader:read-number-after-last"),
))

REPLAY = ("replay", (
    ("`interval N`; 100 where absent; the last counts", "replay:interval 22", "replay:no interval is 100",
     "replay:the last interval counts"),
    ("what ends the settings; one that comes later", "replay:a setting after a call", "replay:a setting after a bad line",
     "replay:no setting: *", "replay:a conduct after a call", "replay:no conduct: *", "replay:resends after a call",
     "replay:no resends: *"),
    ("`tick`, `tick N`, 1 to 1,000,000", "replay:tick and tick 1", "replay:a million ticks", "replay:bad lines"),
    ("`connected`, `lost`, `stop`", "replay:lost in Opening", "replay:stop in Opening"),
    ("`push H`, `advise H`, 0 to 4294967295", "replay:any handles", "replay:the greatest numbers", "replay:bad lines"),
    ("`unreadable N`, 0 to 4294967295", "replay:numbers that no reader gives", "replay:the greatest numbers"),
    ("`message BYTES`, perhaps none", "replay:a message of no bytes", "replay:a message that begins with spaces",
     "replay:a message of every byte but LF"),
    ("`last N`; it is no call", "replay:last is no call", "replay:last 0", "replay:the greatest numbers"),
    ("decimal, without leading zeros", "replay:bad lines"),
    ("`c refused R`; `c CODE NUMBER DETAIL`", "replay:refused in Opening", "replay:up"),
    ("`line L bad`", "replay:bad lines", "replay:all lines are counted"),
    ("lines of 65,520 and 65,521 bytes", "replay:a line of 65520 bytes", "replay:a line of 65521 bytes"),
    ("`end STATE OPEN`, each state", "replay:fresh", "replay:the first tick connects", "replay:first number",
     "replay:19 ticks of Confirming", "replay:32 pushes open", "replay:stop in Up"),
    ("`stop 4`", "replay:a refused making with nothing after it"),
    ("an empty line; a last line without LF", "replay:empty lines", "replay:a last line without LF"),
))

INTERFACES = (GATHER, READ, REPLAY)


def table(number, *rows):
    """Rows of one table of 000: all forms of a sample."""
    return tuple(("Table %d: %s" % (number, row), "reader:paper-000-table-%d-%s*" % (number, row)) for row in rows)


TABLES = ("7.3, samples as printed and corrected", table(1, "version", "interval", "missed-limit", "all-right")
          + table(2, "status", "version") + table(3, "Ok", "VersionMismatch", "ServiceNotReady", "RedundantSession")
          + (("Table 4", "reader:paper-000-table-4-*"),)
          + table(5, "timestamp", "Id", "inRelationTo", "AdvisoryType", "AdvisoryData", "CallId")
          + table(6, "Alert", "GoingOutOfService", "CallTerminated", "appl-x:UnsupportedVersion",
                  "appl-x:UnreadableMessage")
          + table(6, "UnreadableMessage-as-in-table-5") + table(7, "timestamp", "inResponseTo", "all-right")
          + table(8, "timestamp", "version", "ID", "QueryType", "FirstPart", "SecondPart", "TrunkId", "CallTakerPosition")
          + table(9, "Manual", "Rebid")
          + table(10, "timestamp", "ID", "inResponseTo", "StatusCode", "StatusMessage", "FirstPart", "SecondPart",
                  "TrunkId", "CallTakerPosition", "CallId", "ALIBody")
          + table(11, "Ok", "OkMore", "NotFound", "Responder", "Requester", "AnonymousCall", "ANIFailure911",
                  "ANIfailure000", "RequestRefused", "RequestDuplicate")
          + table(12, "schemaVersion", *(label for label, *_ in ALI_ROWS), "Extension", "BellAliBodyExt",
                  *(label for label, *_ in BELL_ROWS))
          + (("the boundary, as a boundary", "framing:paper-000-7.3-boundary", "items:the boundary of 000, 7.3, is refused"),
             ("the boundary, as a message", "reader:paper-000-7.3-boundary-as-message"),
             ("all of them through `items`", "items:all samples of 000, 7.3"),
             ("all of them in Up", "replay:all samples of 000 and 004 in Up"),
             ("Table 3: what each status does", "replay:000, Table 3: *"),
             ("Table 6: what each type does to a Response", "replay:000, Table 6: *"),
             ("Table 7: 999, and blank for a SessionOk", "replay:000, Table 7: *")))

HANDLING = ("7.4, numbers", (
    ("7.4.1: 2 seconds, then Alert, GoingOutOfService, disconnect", "replay:20 ticks of Opening"),
    ("7.4.1: 30 seconds", "replay:Waiting 300 after Opening ran out"),
    ("7.4.2 (1): an Ok with the number sent", "replay:an Ok for a Response",
     "replay:000, 7.4.2: an Ok with the SessionOk's number does"),
    ("7.4.2 (2): an Advisory with the number sent", "replay:an Advisory for a Response"),
    ("7.4.2 (3): 2 seconds; a Response is sent once more, an Advisory not",
     "replay:a Response is sent again at tick 20 and closed at tick 40", "replay:an Advisory push is closed at tick 20"),
    ("7.4.3: an interval of 10 seconds", "replay:000, 7.4.3: ten seconds are 100 ticks"),
    ("7.4.4: teardown by the provider", "replay:stop in Up"),
    ("7.4.4: teardown asked for by the centre", "replay:000, 7.4.4: GoingOutOfService from the centre is only reported"),
    ("7.4.10: messages the wrong way", "replay:000, 7.4.10: Response, SessionOpenRequest and SessionOk from the centre"),
))

DOCUMENT_000 = (TABLES, HANDLING)

DOCUMENT_004 = (("3 and 5, samples and values", tuple(
    ("Figure %d" % number, "reader:paper-004-figure-%d-*" % number) for number in (7, 8, 9, 10)) + (
    ("all of them through `items`", "items:all samples of 004, 3 and 5"),
    ("3.2.3.2: query types", "reader:paper-004-3.2.3.2-*"),
    ("3.2.3.3: status codes", "reader:paper-004-3.2.3.3-*"),
    ("3.2.3.6: advisory types", "reader:paper-004-3.2.3.6-*"),
    ("5.2: the namespace", "reader:paper-004-5.2-*"),
    ("5.6.1 (1): SessionOpenRequest", "reader:paper-004-5.6.1-1-*"),
    ("5.6.1 (2): the four statuses", "reader:paper-004-5.6.1-2-*"),
    ("5.6.1 (3) and (4): closing a session", "reader:paper-004-5.6.1-3-*", "reader:paper-004-5.6.1-4-*",
     "replay:004, 5.6.1: a session is not closed by messages"),
    ("5.6.1 (5): elements of a SessionOpenResponse", "reader:paper-004-5.6.1-5-*"),
    ("5.6.1 (6): attributes of another namespace on Ok", "reader:paper-004-5.6.1-6-*"),
    ("5.6.2: `status` on Response and Advisory", "reader:paper-004-5.6.2-*"),
    ("5.7: status values as printed and corrected", "reader:paper-004-5.7-*", "replay:004, 5.7 as printed: *",
     "replay:004, 5.7 corrected: *"),
)),)

# What stands in the papers and is not run, and why.
NOT_RUN = (
    ("01: refusal 27", "a record that fails the test can be handed in by no program outside; the proofs cover it"),
    ("02, M-105 and M-110: what 27 asks of the resends and the sendings, and that it asks nothing of the conduct",
     "as refusal 27 itself"),
    ("01: an event list shorter than 40, in the real session", "the list lies inside `replay`; the model's test covers the rule"),
    ("01: CR LF as one LF or one space in a value", "no value with a meaning holds white space, so only \"other\" is seen"),
    ("Rulings: `end` caps with the count", "it takes a stream of 4 GiB; framing's `cap-*` run the count itself"),
    ("000: Figures 2 to 14, 004: Figure 22", "pictures, which the copy at hand does not have"),
    ("004: sections 6 and 7, Figures 25 to 27", "samples of the SOAP and ESMI bindings, which document 01 leaves out"),
    ("001, 002, 003", "no message of this link stands in them"),
)
