"""Lines of scripts for the session: the messages that matter to it, and the lines that bring it up."""

from reader_messages import UNREADABLE_URI
from reader_values import STATUS_URI

OTHER_URI = "urn:nena-org:dtc:aqs:notif:advisory:Alert"

OPEN_REQUEST = "message <SessionOpenRequest/>"
REQUEST = 'message <Request><QueryRequest ID="5"/></Request>'
RESPONSE = 'message <Response><QueryResponse inResponseTo="3"/></Response>'


def opened_with(status):
    return 'message <SessionOpenResponse status="%s"/>' % status


def open_response(status="Ok"):
    return opened_with(STATUS_URI + status)


def session_ok(number):
    return 'message <SessionOk ID="%s"/>' % number


def ok(number):
    return 'message <Ok inResponseTo="%s"/>' % number


def advisory(number=None, uri=OTHER_URI):
    relation = "" if number is None else ' inRelationTo="%s"' % number
    return "message <Advisory><Advisory%s><AdvisoryType>%s</AdvisoryType></Advisory></Advisory>" % (relation, uri)


def unreadable(number=None):
    return advisory(number, UNREADABLE_URI)


REDUNDANT = open_response("RedundantSession")

# The same status in other bytes, by what is other.
REDUNDANT_OTHERWISE = {
    "single quotes": REDUNDANT.replace('"', "'"),
    "a decimal reference": open_response("&#82;edundantSession"),
    "hexadecimal references": opened_with("&#x75;rn:nena-org:dtc:aqstcp:status&#x3A;Redundant&#x53;ession"),
    "zeros in a reference": open_response("Redundant&#00083;ession"),
    "a prefix and two tags": "message <a:SessionOpenResponse b:status='%sOk' status = '%sRedundantSession' ></"
                             "a:SessionOpenResponse >" % (STATUS_URI, STATUS_URI),
    "a declaration, a comment and content": "message <?xml version='1.0'?><!--Ok--><SessionOpenResponse version='1' "
                                            "status='%sRedundantSession'>Ok<Ok/></SessionOpenResponse>" % STATUS_URI,
}

# Statuses that are nearly RedundantSession: any other.
NEARLY_REDUNDANT = tuple(STATUS_URI + name for name in (
    "RedundantSessions", "RedundantSessio", "redundantSession", "REDUNDANTSESSION", "Redundant Session",
    "RedundantSession ", "RedundantSession&#32;", "OkRedundantSession", "RedundantSessionOk", "Redundant")) + (
    "RedundantSession", " %sRedundantSession" % STATUS_URI, "urn:ena-org:dtc:aqstcp:status:RedundantSession",
    "urn:nena-org:dtc:aqs:status:RedundantSession")

# With these a fresh session comes up. The SessionOk is sent after the first tick, under number 2.
TO_OPENING = ("tick", "connected")
TO_CONFIRMING = TO_OPENING + (open_response(),)
TO_UP = TO_CONFIRMING + (ok(2),)


def script_of(lines):
    """Each character of a line is a byte."""
    return "".join(line + "\n" for line in lines).encode("latin-1")
