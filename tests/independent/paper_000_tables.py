"""The samples and values of Tables 1 to 11 of source document 000 (7.3), with the answer that document 01 and the rulings
call for. The answers were worked out by hand.

A line is a label (table, row, form), a message and the answer. Forms: `printed` is the sample as the table prints it,
dots and all; `misprint` is the sample made whole, its misprint left in; `right` is the corrected spelling; `closed`
is the sample with its tags closed and nothing added. Marks are those of `reader_examples_refused` (`{` before the place
of refusal) and of `reader_examples_read` (`{` and `}` around values).
"""

from reader_examples_read import NAMED, NONE, OK, OTHER, REDUNDANT, UNREADABLE_MESSAGE

OPEN_REQUEST = ("SessionOpenRequest", ())
REQUEST = ("Request", (("ID", NONE, 0),))
PUSHED = ("Response", ())
ANSWERED = ("Response", (("inResponseTo", NONE, 0),))
UNRELATED = ("Advisory", (("type", OTHER, 0),))
RELATED_TO_NONE = ("Advisory", (("inRelationTo", NONE, 0), ("type", OTHER, 0)))
TIMESTAMP = b'timestamp="2011-10-14T19:51:10.000Z"'
ALERT = b"urn:nena-org:dtc:aqs:notif:advisory:Alert"
ALERT_TYPE = b"<aqs:AdvisoryType>{" + ALERT + b"}</aqs:AdvisoryType>"


def opened(status):
    return b'<SessionOpenResponse status="{%s}" version="1.4"/>' % status


def advised(inside, attributes=b""):
    return b"<Advisory><aqs:Advisory%s>%s</aqs:Advisory></Advisory>" % (attributes, inside)


def asked(inside, attributes=b' ID="{ABC1233}"'):
    return b"<Request><aqs:QueryRequest%s>%s</aqs:QueryRequest></Request>" % (attributes, inside)


def asked_badly(inside):
    """The ID has no marks, because what is inside is refused."""
    return asked(inside, b' ID="ABC1233"')


def answered(inside, attributes=b' ID="2345"'):
    return b"<Response><aqs:QueryResponse%s>%s</aqs:QueryResponse></Response>" % (attributes, inside)


SESSION_TABLES = (
    ("1-version-printed", b'<SessionOpenRequest {... version="1.4" ... >', 9),
    ("1-version-right", b'<SessionOpenRequest version="1.4"/>', OPEN_REQUEST),
    ("1-interval-printed", b"<SessionOpenRequest {... > <SessionOkInterval>PT10S</SessionOkInterval>", 9),
    ("1-interval-right", b"<SessionOpenRequest> <SessionOkInterval>PT10S</SessionOkInterval></SessionOpenRequest>",
     OPEN_REQUEST),
    ("1-missed-limit-printed", b"<SessionOpenRequest {... > <SessionOkMissedLimit>3</SessionOkMissedLimit>", 9),
    ("1-missed-limit-right",
     b"<SessionOpenRequest> <SessionOkMissedLimit>3</SessionOkMissedLimit></SessionOpenRequest>", OPEN_REQUEST),
    ("1-all-right", b'<SessionOpenRequest version="1.4"><SessionOkInterval>PT10S</SessionOkInterval>'
     b"<SessionOkMissedLimit>3</SessionOkMissedLimit></SessionOpenRequest>", OPEN_REQUEST),
    ("2-status-printed", b'<SessionOpenResponse {... status="urn:nena-org:dtc:aqstcp:status:Ok" ... />', 9),
    ("2-status-right", b'<SessionOpenResponse status="{urn:nena-org:dtc:aqstcp:status:Ok}"/>',
     ("SessionOpenResponse", (("status", OK, 0),))),
    ("2-version-printed", b'<SessionOpenResponse {... version="1.4" ... />', 9),
    ("2-version-other", b'<SessionOpenResponse status="{urn:nena-org:dtc:aqstcp:status:Ok}" version="1.3"/>',
     ("SessionOpenResponse", (("status", OK, 0),))),
    ("2-version-closed", b'<SessionOpenResponse version="1.4"/>', 13),
    ("4-printed", b"<SessionOK/>", 13),
    ("4-case-right", b"<SessionOk/>", 13),
    ("4-right", b'<SessionOk ID="{2}"/>', ("SessionOk", (("ID", NAMED, 2),))),
    ("7-timestamp-printed", b'<Ok {... timestamp="2011-10-14T19:51:10.000Z" ... >', 9),
    ("7-timestamp-closed", b"<Ok " + TIMESTAMP + b"/>", 13),
    ("7-inResponseTo-printed", b'<Ok {... inResponseTo="999"/>', 9),
    ("7-inResponseTo-right", b'<Ok inResponseTo="{999}"/>', ("Ok", (("inResponseTo", NAMED, 999),))),
    ("7-inResponseTo-blank", b'<Ok inResponseTo="{}"/>', ("Ok", (("inResponseTo", NONE, 0),))),
    ("7-all-right", b"<Ok " + TIMESTAMP + b' inResponseTo="{999}"/>', ("Ok", (("inResponseTo", NAMED, 999),))),
) + tuple(("3-" + status.decode(), opened(b"urn:nena-org:dtc:aqstcp:status:" + status),
           ("SessionOpenResponse", (("status", meaning, 0),))) for status, meaning in (
    (b"Ok", OK), (b"VersionMismatch", OTHER), (b"ServiceNotReady", OTHER), (b"RedundantSession", REDUNDANT)))

ADVISORY_TABLES = (
    ("5-timestamp-printed", b'<Advisory {... timestamp="2011-10-14T19:51:10Z" ... >', 9),
    ("5-timestamp-closed", b'<Advisory timestamp="2011-10-14T19:51:10Z"/>', 13),
    ("5-timestamp-right", b'<Advisory timestamp="2011-10-14T19:51:10Z"><aqs:Advisory>' + ALERT_TYPE
     + b"</aqs:Advisory></Advisory>", UNRELATED),
    ("5-Id-printed", b'<Advisory> <aqs:Advisory {... Id="BC041" ... >', 9),
    ("5-Id-misprint", advised(ALERT_TYPE, b' Id="BC041"'), UNRELATED),
    ("5-Id-right", advised(ALERT_TYPE, b' ID="BC041"'), UNRELATED),
    ("5-inRelationTo-printed", b'<Advisory > <aqs:Advisory {... inRelationTo="abc123" ...>', 9),
    ("5-inRelationTo-closed", b'<Advisory > <aqs:Advisory inRelationTo="abc123" /></Advisory>', 13),
    ("5-inRelationTo-right", advised(ALERT_TYPE, b' inRelationTo="{abc123}"'), RELATED_TO_NONE),
    ("5-AdvisoryType-printed", b"<Advisory> <aqs:Advisory> <aqs:AdvisoryType> " + ALERT + b" </aqs:AdvisoryType>{", 9),
    ("5-AdvisoryType-closed", b"<Advisory> <aqs:Advisory> <aqs:AdvisoryType>{ " + ALERT
     + b" }</aqs:AdvisoryType></aqs:Advisory></Advisory>", UNRELATED),
    ("5-AdvisoryType-right", advised(ALERT_TYPE), UNRELATED),
    ("5-AdvisoryData-printed",
     b"<Advisory> <aqs:Advisory> <aqs:AdvisoryData> <aqs:Textual>System error 234985</aqs:Textual>{", 9),
    ("5-AdvisoryData-closed",
     advised(b"<aqs:AdvisoryData> <aqs:Textual>System error 234985</aqs:Textual></aqs:AdvisoryData>"), 13),
    ("5-AdvisoryData-right", advised(
        ALERT_TYPE + b"<aqs:AdvisoryData> <aqs:Textual>System error 234985</aqs:Textual></aqs:AdvisoryData>"),
     UNRELATED),
    ("5-CallId-printed", b"{... <aqs:AdvisoryData> <aqs:Detailed> <bcadex:BellAdvisoryDetailedExt> "
     b"<bcadex:CallId>02418234543200110098</bcadex:CallId>", 9),
    ("5-CallId-printed-tags", b"<aqs:AdvisoryData> <aqs:Detailed> <bcadex:BellAdvisoryDetailedExt> "
     b"<bcadex:CallId>02418234543200110098</bcadex:CallId>{", 9),
    ("5-CallId-right", advised(
        ALERT_TYPE + b"<aqs:AdvisoryData> <aqs:Detailed> <bcadex:BellAdvisoryDetailedExt> "
        b"<bcadex:CallId>02418234543200110098</bcadex:CallId></bcadex:BellAdvisoryDetailedExt></aqs:Detailed>"
        b"</aqs:AdvisoryData>"), UNRELATED),
    ("6-UnreadableMessage-as-in-table-5", advised(
        b"<aqs:AdvisoryType>{ urn:nena-org:dtc:aqs:notif:advisory:appl-x:UnreadableMessage }</aqs:AdvisoryType>",
        b' inRelationTo="{3}"'), ("Advisory", (("inRelationTo", NAMED, 3), ("type", OTHER, 0)))),
) + tuple(("6-" + name.decode(), advised(b"<aqs:AdvisoryType>{urn:nena-org:dtc:aqs:notif:advisory:%s}</aqs:AdvisoryType>"
                                         % name, b' inRelationTo="{3}"'),
           ("Advisory", (("inRelationTo", NAMED, 3), ("type", meaning, 0)))) for name, meaning in (
    (b"Alert", OTHER), (b"GoingOutOfService", OTHER), (b"CallTerminated", OTHER),
    (b"appl-x:UnsupportedVersion", OTHER), (b"appl-x:UnreadableMessage", UNREADABLE_MESSAGE)))

REQUEST_TABLES = (
    ("8-timestamp-printed", b'<Request {... timestamp="2011-10-14T19:51:10.000Z" ... >', 9),
    ("8-timestamp-closed", b"<Request " + TIMESTAMP + b"/>", 13),
    ("8-timestamp-right", b"<Request " + TIMESTAMP + b'><aqs:QueryRequest ID="{ABC1233}"/></Request>', REQUEST),
    ("8-version-printed", b'<Request {... > <aqs:QueryRequest ... version="1.3" ... >', 9),
    ("8-version-closed", asked(b"", b' version="1.3"'), 13),
    ("8-version-right", asked(b"", b' version="1.3" ID="{ABC1233}"'), REQUEST),
    ("8-ID-printed", b'<Request {... > <aqs:QueryRequest ... ID="ABC1233" ... >', 9),
    ("8-ID-right", b'<Request> <aqs:QueryRequest ID="{ABC1233}"/></Request>', REQUEST),
    ("8-QueryType-printed", b"<Request {... > <aqs:QueryRequest ... > <aqs:QueryType>"
     b"urn:nena-org:dtc:aqs:request:Manual<\\aqs:QueryType>", 9),
    ("8-QueryType-misprint",
     asked_badly(b"<aqs:QueryType>urn:nena-org:dtc:aqs:request:Manual<{\\aqs:QueryType>"), 9),
    ("8-QueryType-right", asked(b"<aqs:QueryType>urn:nena-org:dtc:aqs:request:Manual</aqs:QueryType>"), REQUEST),
    ("8-FirstPart-printed", b"<Request {... > <aqs:QueryRequest ... > <aqs:QueryKey> <aqs:NumericKey> "
     b"<aqs: FirstPart>4186913562<\\aqs: FirstPart>", 9),
    ("8-FirstPart-misprint", asked_badly(b"<aqs:QueryKey> <aqs:NumericKey> <aqs:{ FirstPart>4186913562"
                                         b"<\\aqs: FirstPart></aqs:NumericKey></aqs:QueryKey>"), 9),
    ("8-FirstPart-half-right", asked_badly(b"<aqs:QueryKey> <aqs:NumericKey> <aqs:FirstPart>4186913562"
                                           b"<{\\aqs: FirstPart></aqs:NumericKey></aqs:QueryKey>"), 9),
    ("8-FirstPart-right", asked(b"<aqs:QueryKey> <aqs:NumericKey> <aqs:FirstPart>4186913562</aqs:FirstPart>"
                                b"</aqs:NumericKey></aqs:QueryKey>"), REQUEST),
    ("8-SecondPart-printed", b"<Request {... > <aqs:QueryRequest ... > <aqs:QueryKey> <aqs:NumericKey> "
     b"<aqs:SecondPart >4185113562<\\aqs:SecondPart>", 9),
    ("8-SecondPart-misprint", asked_badly(b"<aqs:QueryKey> <aqs:NumericKey> <aqs:SecondPart >4185113562"
                                          b"<{\\aqs:SecondPart></aqs:NumericKey></aqs:QueryKey>"), 9),
    ("8-SecondPart-right", asked(b"<aqs:QueryKey> <aqs:NumericKey> <aqs:SecondPart >4185113562</aqs:SecondPart>"
                                 b"</aqs:NumericKey></aqs:QueryKey>"), REQUEST),
    ("8-TrunkId-printed",
     b"<Request {... > <aqs:QueryRequest ... > <aqs:QueryProperties> <aqs:TrunkID>21<\\aqs:TrunkID>", 9),
    ("8-TrunkId-misprint",
     asked_badly(b"<aqs:QueryProperties> <aqs:TrunkID>21<{\\aqs:TrunkID></aqs:QueryProperties>"), 9),
    ("8-TrunkId-right", asked(b"<aqs:QueryProperties> <aqs:TrunkID>21</aqs:TrunkID></aqs:QueryProperties>"), REQUEST),
    ("8-CallTakerPosition-printed", b"<Request {... > <aqs:QueryRequest ... > <aqs:QueryProperties> "
     b"<aqs:CallTakerPosition>17<\\aqs:CallTakerPosition>", 9),
    ("8-CallTakerPosition-misprint", asked_badly(b"<aqs:QueryProperties> <aqs:CallTakerPosition>17"
                                                 b"<{\\aqs:CallTakerPosition></aqs:QueryProperties>"), 9),
    ("8-CallTakerPosition-right", asked(b"<aqs:QueryProperties> <aqs:CallTakerPosition>17</aqs:CallTakerPosition>"
                                        b"</aqs:QueryProperties>"), REQUEST),
) + tuple(("9-%s-%s" % (name.decode(), form), asked(
    b"<aqs:QueryType>urn:%s:dtc:aqs:request:%s</aqs:QueryType>" % (owner, name)), REQUEST)
          for name in (b"Manual", b"Rebid") for form, owner in (("printed", b"nen-org"), ("right", b"nena-org")))

RESPONSE_TABLES = (
    ("10-timestamp-printed", b'<Response {... timestamp="2011-10-14T19:51:10.000Z"... >', 9),
    ("10-timestamp-misprint", b"<Response " + TIMESTAMP + b'{... ><aqs:QueryResponse ID="2345"/></Response>', 9),
    ("10-timestamp-right", b"<Response " + TIMESTAMP + b'><aqs:QueryResponse ID="2345"/></Response>', PUSHED),
    ("10-ID-printed", b'<Response {... > <aqs:QueryResponse ... ID="2345" ... >', 9),
    ("10-ID-right", b'<Response > <aqs:QueryResponse ID="2345" /></Response>', PUSHED),
    ("10-inResponseTo-printed", b'<Response {... > <aqs:QueryResponse ... inResponseTo="ABC1233" ... >', 9),
    ("10-inResponseTo-right", answered(b"", b' inResponseTo="{ABC1233}"'), ANSWERED),
    ("10-StatusCode-printed", b"<Response {... > <aqs:QueryResponse ... > <aqs:Status> <aqs:StatusCode>"
     b"urn:nen-org:dtc:aqs:status:Ok<\\aqs:StatusCode>", 9),
    ("10-StatusCode-misprint", answered(
        b"<aqs:Status> <aqs:StatusCode>urn:nen-org:dtc:aqs:status:Ok<{\\aqs:StatusCode></aqs:Status>"), 9),
    ("10-StatusCode-half-right", answered(
        b"<aqs:Status> <aqs:StatusCode>urn:nen-org:dtc:aqs:status:Ok</aqs:StatusCode></aqs:Status>"), PUSHED),
    ("10-StatusMessage-printed", b"<Response {... > <aqs:QueryResponse ... > <aqs:Status> "
     b"<aqs:StatusMessage>9-1-1 CALL NOT ANSWERED<\\aqs: StatusMessage >", 9),
    ("10-StatusMessage-misprint", answered(b"<aqs:Status> <aqs:StatusMessage>9-1-1 CALL NOT ANSWERED"
                                           b"<{\\aqs: StatusMessage ></aqs:Status>"), 9),
    ("10-StatusMessage-half-right", answered(b"<aqs:Status> <aqs:StatusMessage>9-1-1 CALL NOT ANSWERED"
                                             b"</aqs:{ StatusMessage ></aqs:Status>"), 9),
    ("10-StatusMessage-right", answered(b"<aqs:Status> <aqs:StatusMessage>9-1-1 CALL NOT ANSWERED"
                                        b"</aqs:StatusMessage ></aqs:Status>"), PUSHED),
    ("10-FirstPart-printed", b"<Response {... > <aqs:QueryResponse ... > <aqs:QueryKey> <aqs:NumericKey> "
     b"<aqs:FirstPart>4186913562<\\aqs:FirstPart>", 9),
    ("10-FirstPart-misprint", answered(b"<aqs:QueryKey> <aqs:NumericKey> <aqs:FirstPart>4186913562"
                                       b"<{\\aqs:FirstPart></aqs:NumericKey></aqs:QueryKey>"), 9),
    ("10-FirstPart-right", answered(b"<aqs:QueryKey> <aqs:NumericKey> <aqs:FirstPart>4186913562</aqs:FirstPart>"
                                    b"</aqs:NumericKey></aqs:QueryKey>"), PUSHED),
    ("10-SecondPart-printed", b"<Response {... > <aqs:QueryResponse ... > <aqs:QueryKey> <aqs:NumericKey> "
     b"<aqs:SecondPart >4185113562<\\aqs:SecondPart >", 9),
    ("10-SecondPart-misprint", answered(b"<aqs:QueryKey> <aqs:NumericKey> <aqs:SecondPart >4185113562"
                                        b"<{\\aqs:SecondPart ></aqs:NumericKey></aqs:QueryKey>"), 9),
    ("10-SecondPart-right", answered(b"<aqs:QueryKey> <aqs:NumericKey> <aqs:SecondPart >4185113562</aqs:SecondPart >"
                                     b"</aqs:NumericKey></aqs:QueryKey>"), PUSHED),
    ("10-TrunkId-printed",
     b"<Response {... > <aqs:QueryResponse ... > <aqs:QueryProperties> <aqs:TrunkID>21<\\aqs:TrunkID>", 9),
    ("10-TrunkId-misprint", answered(b"<aqs:QueryProperties> <aqs:TrunkID>21<{\\aqs:TrunkID></aqs:QueryProperties>"), 9),
    ("10-TrunkId-right", answered(b"<aqs:QueryProperties> <aqs:TrunkID>21</aqs:TrunkID></aqs:QueryProperties>"),
     PUSHED),
    ("10-CallTakerPosition-printed", b"<Response {... > <aqs:QueryResponse ... > <aqs:QueryProperties> "
     b"<aqs:CallTakerPosition>17<\\aqs:CallTakerPosition>", 9),
    ("10-CallTakerPosition-misprint", answered(b"<aqs:QueryProperties> <aqs:CallTakerPosition>17"
                                               b"<{\\aqs:CallTakerPosition></aqs:QueryProperties>"), 9),
    ("10-CallTakerPosition-right", answered(b"<aqs:QueryProperties> <aqs:CallTakerPosition>17"
                                            b"</aqs:CallTakerPosition></aqs:QueryProperties>"), PUSHED),
    ("10-CallId-printed", b"<Response {... > <aqs:QueryResponse ... > <aqs:QueryProperties> <aqs:Extension> "
     b"<bcqpex:BellQueryPropertiesExt> <bcqpex:CallId>02418234543200110098</bcqpex:CallId>", 9),
    ("10-CallId-right", answered(
        b"<aqs:QueryProperties> <aqs:Extension> <bcqpex:BellQueryPropertiesExt> <bcqpex:CallId>02418234543200110098"
        b"</bcqpex:CallId></bcqpex:BellQueryPropertiesExt></aqs:Extension></aqs:QueryProperties>"), PUSHED),
    ("10-ALIBody-printed",
     b"<Request {... > <aqs:QueryResponse ... > <aqs:QueryResultData> <ali:ALIBody> ... <\\ali:ALIBody>", 9),
    ("10-ALIBody-misprint", b'<Request > <aqs:QueryResponse ID="2345" > <aqs:QueryResultData> <ali:ALIBody> ... '
     b"<{\\ali:ALIBody></aqs:QueryResultData></aqs:QueryResponse></Request>", 9),
    ("10-ALIBody-half-right", b'<Request > <aqs:QueryResponse ID="2345" > <aqs:QueryResultData> <ali:ALIBody> ... '
     b"</ali:ALIBody></aqs:QueryResultData></aqs:QueryResponse></Request>", 13),
    ("10-ALIBody-right",
     answered(b"<aqs:QueryResultData> <ali:ALIBody> ... </ali:ALIBody></aqs:QueryResultData>"), PUSHED),
) + tuple(("11-" + code.decode(), answered(
    b"<aqs:Status><aqs:StatusCode>urn:nena-org:dtc:aqs:status:%s</aqs:StatusCode></aqs:Status>" % code), PUSHED)
          for code in (b"Ok", b"OkMore", b"NotFound", b"Responder", b"Requester", b"AnonymousCall", b"ANIFailure911",
                       b"ANIfailure000", b"RequestRefused", b"RequestDuplicate"))

# The boundary of 7.3, handed to the reader: a document of its own, and none of the seven.
BOUNDARY_OF_000 = b"<urn.nenaorg.dtc.aqstcp.IMB/>"
BOUNDARY_AS_MESSAGE = (("7.3-boundary-as-message", BOUNDARY_OF_000, 13),)

TABLES_1_TO_11 = SESSION_TABLES + ADVISORY_TABLES + REQUEST_TABLES + RESPONSE_TABLES
