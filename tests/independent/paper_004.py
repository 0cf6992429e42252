"""The samples and values of sections 3 and 5 of source document 004, with the answer that document 01 and the rulings call
for. The answers were worked out by hand.

A line is a label (figure or section, form), a message and the answer; forms and marks are those of `paper_000_tables`.
004 prints the messages of AQS alone; on this link each of them travels inside a Request, Response or Advisory (5.5).
`tunnelled` is such a message without the declaration, `whole-inside` the one with it, which 12 shuts out.
"""

from paper_000_tables import ANSWERED, OPEN_REQUEST, PUSHED, REQUEST, UNRELATED, advised, answered, asked
from reader_examples_read import NAMED, OK, OTHER, REDUNDANT

DECLARATION = b'<?xml version="1.0" encoding="UTF-8"?>\n'

FIGURE_7 = b"""<QueryRequest xmlns="urn:nena-org:dtc:aqs"
xmlns:nali="http://www.nena9-1-1.org/schemas/2003/ali"
version="0.1" ID="{XYZ123}">
  <QueryType>urn:nena-org:dtc:aqs:request:Normal</QueryType>
  <QueryKey>
    <NumericKey>
      <FirstPart>1234567890</FirstPart>
    </NumericKey>
  </QueryKey>
  <QueryProperties>
    <TrunkID>23</TrunkID>
  </QueryProperties>
</QueryRequest>"""

FIGURE_8 = b"""<naqs:QueryResponse xmlns:naqs="urn:ena-org:dtc:ags"
  xmlns:nali="http://www.nena9-1-1.org/schemas/2003/ali"
  inResponseTo="{XYZ123}" version="0.1" ID="ABC987">
  <naqs:Status>
    <naqs:StatusCode>urn:ena-org:dtc:ags:status:Ok</naqs:StatusCode>
  </naqs:Status>
  <naqs:QueryProperties>
    <naqs:TrunkID>23</naqs:TrunkID>
  </naqs:QueryProperties>
  <naqs:QueryResultData>
    <ALIBody schemaVersion="4.2"
      xmlns="http://www.nena9-1-1.org/schemas/2003/ali">
      <CallInfo>
        <CallbackNum>1234567890</CallbackNum>
        <CallingPartyNum>0987654321</CallingPartyNum>
        <ClassOfService code="1">String</ClassOfService>
        <TypeOfService code="0">String</TypeOfService>
        <SourceOfService>W</SourceOfService>
      </CallInfo>
      <LocationInfo>
        <GeoLocation>
          <Latitude>3.141592</Latitude>
          <Longitude>3.141592</Longitude>
        </GeoLocation>
      </LocationInfo>
      <Agencies>
        <ESN>00000</ESN>
      </Agencies>
    </ALIBody>
  </naqs:QueryResultData>
</naqs:QueryResponse>"""

FIGURE_9 = b"""<QueryResponse xmlns="urn:nen-org:dtc:aqs"
  inResponseTo="{XYZ123}" version="0.1" ID="ABC987">
  <Status>
    <StatusCode>urn:nen-org:dtc:aqs:status:NotFound</StatusCode>
  </Status>
  <QueryKey>
    <NumericKey>
      <FirstPart>1234567890</FirstPart>
    </NumericKey>
  </QueryKey>
  <QueryProperties>
    <TrunkID>23</TrunkID>
  </QueryProperties>
</QueryResponse>"""

FIGURE_10 = b"""<Advisory xmlns="urn:nen-org:dtc:aqs"
  version="0.1" ID="ABC111">
  <AdvisoryType>{urn:nen-org:dtc:aqs:notif:advisory:Alert}</AdvisoryType>
  <AdvisoryData>
    <Textual>
      Amber alert advisory http://www.xyz.org/aa?id=123
    </Textual>
  </AdvisoryData>
</Advisory>"""

# The figure's number, the sample, what it travels in, what it is read as there.
FIGURES = (("7", FIGURE_7, b"Request", REQUEST), ("8", FIGURE_8, b"Response", ANSWERED),
           ("9", FIGURE_9, b"Response", ANSWERED), ("10", FIGURE_10, b"Advisory", UNRELATED))


def without_marks(marked):
    return marked.replace(b"{", b"").replace(b"}", b"")


def spelled_right(sample):
    """The letters that the copy at hand has lost, put back."""
    for lost, whole in ((b"urn:ena-org", b"urn:nena-org"), (b"urn:nen-org", b"urn:nena-org"), (b":dtc:ags", b":dtc:aqs")):
        sample = sample.replace(lost, whole)
    return sample


def figures():
    for number, sample, root, read_as in FIGURES:
        label = "figure-" + number
        yield label + "-printed", DECLARATION + without_marks(sample), 13
        yield label + "-printed-tunnelled", b"<%s>%s</%s>" % (root, sample, root), read_as
        right = spelled_right(sample)
        yield label + "-right", DECLARATION + without_marks(right), 13
        yield label + "-right-tunnelled", DECLARATION + b"<%s>%s</%s>" % (root, right, root), read_as
        yield label + "-whole-inside", b"<%s>{%s</%s>" % (root, DECLARATION + without_marks(right), root), 12


QUERY_TYPES = (b"Normal", b"Rebid", b"Refresh", b"Manual", b"Test", b"appl-x:...")
STATUS_CODES = (b"Ok", b"OkMore", b"OkPorting", b"OkMigrate", b"Requester", b"Responder", b"VersionMismatch",
                b"RequestRefused", b"DuplicateRequest", b"NotFound", b"ANIFailure911", b"ANIFailure000",
                b"AnonymousCall", b"RequestDenied", b"appl-x:.....")
ADVISORY_TYPES = (b"Alert", b"GoingOutOfService", b"Undetermined", b"CallComplete", b"appl-x:...")


def values_of_section_3():
    """The query types and status codes are free content; the advisory types all mean other."""
    for name in QUERY_TYPES:
        yield ("3.2.3.2-" + name.decode(), asked(b"<QueryType>urn:nena-org:dtc:aqs:request:%s</QueryType>" % name),
               REQUEST)
    for name in STATUS_CODES:
        yield "3.2.3.3-" + name.decode(), answered(
            b"<Status><StatusCode>urn:nena-org:dtc:aqs:status:%s</StatusCode></Status>" % name), PUSHED
    for name in ADVISORY_TYPES:
        yield "3.2.3.6-" + name.decode(), advised(
            b"<AdvisoryType>{urn:nena-org:dtc:aqs:notif:advisory:%s}</AdvisoryType>" % name), UNRELATED


STATUSES = ((b"Ok", OK), (b"VersionMismatch", OTHER), (b"ServiceNotReady", OTHER), (b"RedundantSession", REDUNDANT),
            (b"appl-x:...", OTHER))


def status(owner, name, meaning):
    return (b'<SessionOpenResponse status="{urn:%s:dtc:aqstcp:status:%s}"/>' % (owner, name),
            ("SessionOpenResponse", (("status", meaning, 0),)))


def statuses():
    """5.7 has lost a letter, so that as printed no value means anything; 5.6.1 (2) has it, and not the last of them."""
    for name, meaning in STATUSES:
        yield ("5.7-printed-" + name.decode(), *status(b"ena-org", name, OTHER))
        yield ("5.7-right-" + name.decode(), *status(b"nena-org", name, meaning))
    for name, meaning in STATUSES[:-1]:
        yield ("5.6.1-2-" + name.decode(), *status(b"nena-org", name, meaning))


MORE_VALUES = (
    ("3.2.3.6-printed", advised(b"<AdvisoryType>{urn:nen-org:dtc:aq:notif:advisory:...}</AdvisoryType>"), UNRELATED),
    ("5.2-namespace-printed", b'<SessionOpenRequest xmlns="urn:nen-org:dtc:aqstcp" version="1.4"/>', OPEN_REQUEST),
    ("5.2-namespace-right", b'<SessionOpenRequest xmlns="urn:nena-org:dtc:aqstcp" version="1.4"/>', OPEN_REQUEST),
    ("5.2-root-qualified", b'<t:SessionOpenRequest xmlns:t="urn:nena-org:dtc:aqstcp" version="1.4"/>', OPEN_REQUEST),
    ("5.6.1-1-no-version", b"<SessionOpenRequest/>", OPEN_REQUEST),
    ("5.6.1-3-SessionCloseRequest", b"<SessionCloseRequest/>", 13),
    ("5.6.1-3-GoingOutOfService", advised(
        b"<AdvisoryType>{urn:nena-org:dtc:aqstcp:notify:advisory:GoingOutOfService}</AdvisoryType>"), UNRELATED),
    ("5.6.1-4-SessionCloseResponse", b'<SessionCloseResponse status="urn:nena-org:dtc:aqstcp:status:Ok"/>', 13),
    ("5.6.1-5-in-response", b'<SessionOpenResponse status="{urn:nena-org:dtc:aqstcp:status:Ok}">'
     b"<SessionOkInterval>PT10S</SessionOkInterval><SessionOkMissedLimit>3</SessionOkMissedLimit>"
     b"</SessionOpenResponse>", ("SessionOpenResponse", (("status", OK, 0),))),
    ("5.6.1-6-other-namespace", b'<Ok xmlns:b="urn:bell-canada:aqs" b:inResponseTo="7"/>', 13),
    ("5.6.1-6-both", b'<Ok xmlns:b="urn:bell-canada:aqs" b:inResponseTo="7" inResponseTo="{8}"/>',
     ("Ok", (("inResponseTo", NAMED, 8),))),
    ("5.6.2-2-status", b'<Response status="urn:nena-org:dtc:aqstcp:status:Ok"><aqs:QueryResponse/></Response>', PUSHED),
    ("5.6.2-3-status", b'<Advisory status="urn:nena-org:dtc:aqstcp:status:Ok"><aqs:Advisory><aqs:AdvisoryType>{x}'
     b"</aqs:AdvisoryType></aqs:Advisory></Advisory>", UNRELATED),
)

SECTIONS_3_AND_5 = tuple(figures()) + tuple(values_of_section_3()) + tuple(statuses()) + MORE_VALUES
