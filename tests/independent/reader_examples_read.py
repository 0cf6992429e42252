"""Messages that are read, and well-formed ones that are none of the seven, written by hand from document 01 ("The seven
messages"), the rulings on messages and Tables 3, 5 and 6 of source document 000. Nothing was found by running anything.

In a message that is read, `{` and `}` stand around each value; a line says of each, in the order in which they stand,
its name, what it means and the number it names. `EMPTY_TAG` stands for a type that is an empty-element tag.
"""

from reader_answer import KINDS, NOT_THERE, VALUES, Answer, Value

STATUS = b"urn:nena-org:dtc:aqstcp:status:"
TYPE = b"urn:nena-org:dtc:aqs:notif:advisory:"
UNREADABLE = TYPE + b"appl-x:UnreadableMessage"
NONE, NAMED = 0, 1
OTHER, OK, REDUNDANT = 0, 1, 2
UNREADABLE_MESSAGE = 1
EMPTY_TAG = "empty-element tag"


def ok(value):
    return b'<Ok inResponseTo="{' + value + b'}"/>'


def around(content):
    return b"<SessionOpenRequest>" + content + b"</SessionOpenRequest>"


def response(status):
    return b'<SessionOpenResponse status="{' + status + b'}"/>'


def advisory(inside, attributes=b""):
    return b"<Advisory><aqs:Advisory" + attributes + b">" + inside + b"</aqs:Advisory></Advisory>"


def typed(value):
    return advisory(b"<aqs:AdvisoryType>{" + value + b"}</aqs:AdvisoryType>")


KINDS_READ = (
    ("open-request",
     b"<SessionOpenRequest version=\"1.4\"><SessionOkInterval>PT10S</SessionOkInterval></SessionOpenRequest>",
     "SessionOpenRequest", ()),
    ("open-request-bare", b"<SessionOpenRequest/>", "SessionOpenRequest", ()),
    ("open-request-free", b"<SessionOpenRequest ID=\"1\" status=\"x\" inResponseTo=\"2\"/>", "SessionOpenRequest", ()),
    ("open-response", response(STATUS + b"Ok"), "SessionOpenResponse", (("status", OK, 0),)),
    ("session-ok", b"<SessionOk ID='{12}'/>", "SessionOk", (("ID", NAMED, 12),)),
    ("ok", ok(b"7"), "Ok", (("inResponseTo", NAMED, 7),)),
    ("advisory", b"<Advisory><aqs:Advisory inRelationTo=\"{31}\"><aqs:AdvisoryType>{" + UNREADABLE +
     b"}</aqs:AdvisoryType></aqs:Advisory></Advisory>", "Advisory",
     (("inRelationTo", NAMED, 31), ("type", UNREADABLE_MESSAGE, 0))),
    ("request", b"<Request><aqs:QueryRequest ID='{5}'><aqs:QueryType>x</aqs:QueryType></aqs:QueryRequest></Request>",
     "Request",
     (("ID", NAMED, 5),)),
    ("response", b"<Response><QueryResponse inResponseTo='{6}'><a/><b/></QueryResponse></Response>", "Response",
     (("inResponseTo", NAMED, 6),)),
    ("response-pushed", b"<Response><QueryResponse ID='6'/></Response>", "Response", ()),
    ("space-around-root", b" \t\r\n<Ok inResponseTo=\"{7}\"/>\n\r\t ", "Ok", (("inResponseTo", NAMED, 7),)),
    ("comments-around-root", b"<!--a--><!-- b --> <Ok inResponseTo=\"{7}\"/><!--><Ok/>-->", "Ok",
     (("inResponseTo", NAMED, 7),)),
    ("declared", b"<?xml version=\"1.0\" encoding=\"UTF-8\"?><Ok inResponseTo=\"{7}\"/>", "Ok",
     (("inResponseTo", NAMED, 7),)),
    ("declared-loosely", b"<?xml\t\r\n version\n=\t'1.0' encoding = 'utf-8' ?>\n<Ok inResponseTo='{7}' />", "Ok",
     (("inResponseTo", NAMED, 7),)),
    ("declared-short", b"<?xml version='1.0'?><SessionOpenRequest/>", "SessionOpenRequest", ()),
    ("prefixed", b"<t:Ok xmlns:t=\"urn:nena-org:dtc:aqstcp\" inResponseTo=\"{7}\"></t:Ok >", "Ok",
     (("inResponseTo", NAMED, 7),)),
    ("prefix-of-other-kind", b"<Advisory:Ok inResponseTo=\"{7}\"/>", "Ok", (("inResponseTo", NAMED, 7),)),
    ("free-content",
     b"<Ok timestamp=\"2011-10-14T19:51:10.000Z\" inResponseTo=\"{999}\">x<a b='c'/><!-- --><Ok/>&lt;</Ok>", "Ok",
     (("inResponseTo", NAMED, 999),)),
    ("text-around-child", b"<Request>x<!-- <QueryRequest/> -->&amp;<QueryRequest ID='{5}'/>]]</Request>", "Request",
     (("ID", NAMED, 5),)),
    ("longest", b"<SessionOk ID='{1}'/>" + b" " * 65501, "SessionOk", (("ID", NAMED, 1),)),
    ("level-32", b"<SessionOpenRequest>" + b"<a>" * 31 + b"</a>" * 31 + b"</SessionOpenRequest>",
     "SessionOpenRequest", ()),
    ("level-32-markup",
     b"<SessionOpenRequest>" + b"<a>" * 31 + b"<!-- <b> -->x" + b"</a>" * 31 + b"<a/></SessionOpenRequest>",
     "SessionOpenRequest", ()),
    ("16-attributes", b"<Ok" + b"".join(b" a%d=''" % i for i in range(15)) + b" inResponseTo='{7}' />", "Ok",
     (("inResponseTo", NAMED, 7),)),
    ("parts-of-64", b"<%s:SessionOpenRequest %s:%s=''></%s:SessionOpenRequest>" % ((b"n" * 64,) * 4),
     "SessionOpenRequest", ()),
)

TEXT_READ = tuple((label, around(text), "SessionOpenRequest", ()) for label, text in (
    ("brackets-comment", b"]]<!---->>"), ("brackets-tag", b"]]<b/>>"), ("brackets-reference", b"]]&gt;"),
    ("brackets-half-reference", b"]&#93;>"), ("brackets-in-value", b"<b c=']]>'/>"),
    ("brackets-in-comment", b"<!--]]>-->"),
    ("brackets-across", b"]<b>]</b>>"), ("brackets-at-end", b"]]"), ("greater-than", b"a>b]>c"),
    ("comment-empty", b"<!---->"),
    ("comment-hyphen", b"<!--->-->"), ("comment-hyphens-apart", b"<!-- - - > - -->"),
    ("repeated-no-more", b"<b c='' cc='' c.='' x:c='' y:c='' C=''/>"),
    ("names", b"<_a.-1:_b.-2 _='' a-.9=''></_a.-1:_b.-2\n>"),
    ("value-greater-than", b"<b c='>' d=\">'\" e='\"'/>"),
    ("references", b"&amp;&lt;&gt;&apos;&quot;&#9;&#xA;&#13;&#x20;"),
    ("numbers", b"&#xD7FF;&#xE000;&#xFFFD;&#x10000;&#x10FFFF;&#1114111;&#x10ffff;&#0000000000000000000000055;"),
    ("characters", "\x7f\x80\x9f\u07ff\u0800\ud7ff\ue000\ufeff\ufffd\U00010000\U0001fffe\U0010ffff".encode("utf-8")),
    ("characters-in-value", "<b c='\x7f\x80\ufeff\U0010ffff'/>".encode("utf-8")),
    ("characters-in-comment", "<!--\x7f\x80\ufeff\U0010ffff-->".encode("utf-8")),
))

NUMBERS_READ = tuple(("number-" + label, ok(value), "Ok", (("inResponseTo", *meant),)) for label, value, *meant in (
    ("0", b"0", NAMED, 0), ("00", b"00", NONE, 0), ("007", b"007", NONE, 0), ("plus", b"+7", NONE, 0),
    ("minus", b"-7", NONE, 0),
    ("last", b"4294967295", NAMED, 4294967295), ("after-last", b"4294967296", NONE, 0),
    ("wraps-32", b"4294967303", NONE, 0),
    ("wraps-64", b"18446744073709551623", NONE, 0), ("long", b"7" * 400, NONE, 0), ("empty", b"", NONE, 0),
    ("abc", b"abc", NONE, 0),
    ("space-before", b" 7", NONE, 0), ("space-after", b"7 ", NONE, 0), ("tab", b"\t7", NONE, 0),
    ("cr-lf", b"7\r\n", NONE, 0),
    ("decimal-reference", b"&#55;", NAMED, 7), ("hex-reference", b"&#x37;", NAMED, 7),
    ("zeros-in-reference", b"&#00055;&#x0038;", NAMED, 78),
    ("space-reference", b"&#32;7", NONE, 0), ("lf-reference", b"7&#10;", NONE, 0),
    ("mixed", b"4&#50;9&#x34;967295", NAMED, 4294967295),
    ("zero-by-reference", b"&#48;", NAMED, 0), ("leading-zero-by-reference", b"&#48;7", NONE, 0),
    ("hex", b"0x7", NONE, 0),
    ("dot", b"7.0", NONE, 0), ("arabic", "\u0667".encode("utf-8"), NONE, 0),
    ("wide", "\uff17".encode("utf-8"), NONE, 0),
    ("ampersand", b"7&amp;", NONE, 0), ("ten-digits", b"9999999999", NONE, 0),
    ("nine-digits", b"999999999", NAMED, 999999999),
))

STATUSES_READ = tuple(("status-" + label, response(value), "SessionOpenResponse", (("status", meaning, 0),))
                      for label, value, meaning in (
    ("redundant", STATUS + b"RedundantSession", REDUNDANT), ("mismatch", STATUS + b"VersionMismatch", OTHER),
    ("not-ready", STATUS + b"ServiceNotReady", OTHER), ("empty", b"", OTHER), ("short", b"Ok", OTHER),
    ("lower", STATUS + b"ok", OTHER),
    ("upper", STATUS + b"OK", OTHER), ("longer", STATUS + b"Oks", OTHER), ("shorter", STATUS + b"O", OTHER),
    ("lost-letter", b"urn:ena-org:dtc:aqstcp:status:Ok", OTHER), ("of-aqs", b"urn:nena-org:dtc:aqs:status:Ok", OTHER),
    ("space-before", b" " + STATUS + b"Ok", OTHER), ("space-after", STATUS + b"Ok ", OTHER),
    ("lf", STATUS + b"Ok\n", OTHER),
    ("reference", STATUS + b"&#79;k", OK),
    ("hex-reference", b"&#x75;rn:nena-org:dtc:aqstcp:status&#x3A;Redundant&#x53;ession", REDUNDANT),
))

TYPES_READ = tuple(("type-" + label, typed(value), "Advisory", (("type", meaning, 0),)) for label, value, meaning in (
    ("alert", TYPE + b"Alert", OTHER), ("out-of-service", TYPE + b"GoingOutOfService", OTHER),
    ("terminated", TYPE + b"CallTerminated", OTHER),
    ("unsupported", TYPE + b"appl-x:UnsupportedVersion", OTHER), ("no-appl", TYPE + b"UnreadableMessage", OTHER),
    ("empty", b"", OTHER),
    ("as-in-table-5", b" " + UNREADABLE + b" ", OTHER), ("lf", UNREADABLE + b"\n", OTHER),
    ("comment-only", b"<!-- -->", OTHER),
    ("comment-before", b"<!-- x -->" + UNREADABLE, UNREADABLE_MESSAGE),
    ("comment-inside", UNREADABLE.replace(b"able", b"a<!-- > -->b<!---->le"), UNREADABLE_MESSAGE),
    ("reference", UNREADABLE.replace(b"M", b"&#77;"), UNREADABLE_MESSAGE),
    ("element-before", b"<x/>" + UNREADABLE, OTHER),
    ("element-after", UNREADABLE + b"<x></x>", OTHER), ("element-around", b"<x>" + UNREADABLE + b"</x>", OTHER),
    ("lower", UNREADABLE.lower(), OTHER), ("one-off", UNREADABLE[:-1], OTHER),
    ("comment-with-uri", b"<!--" + UNREADABLE + b"-->", OTHER),
))

PLACES_READ = (
    ("advisory-unrelated", typed(UNREADABLE), "Advisory", (("type", UNREADABLE_MESSAGE, 0),)),
    ("advisory-empty-tag", advisory(b"<AdvisoryType/>"), "Advisory", (("type", OTHER, EMPTY_TAG),)),
    ("advisory-empty-tag-first", advisory(b"<AdvisoryType a='' /><AdvisoryType>" + UNREADABLE + b"</AdvisoryType>"),
     "Advisory",
     (("type", OTHER, EMPTY_TAG),)),
    ("advisory-first-type", advisory(b"<x/>y<AdvisoryType>{" + UNREADABLE + b"}</AdvisoryType><AdvisoryType/>"),
     "Advisory",
     (("type", UNREADABLE_MESSAGE, 0),)),
    ("advisory-element-first",
     advisory(b"<AdvisoryType>{<x/>}</AdvisoryType><AdvisoryType>" + UNREADABLE + b"</AdvisoryType>"), "Advisory",
     (("type", OTHER, 0),)),
    ("advisory-deeper-first",
     advisory(b"<x><AdvisoryType>x</AdvisoryType></x><AdvisoryType>{" + UNREADABLE + b"}</AdvisoryType>"),
     "Advisory", (("type", UNREADABLE_MESSAGE, 0),)),
    ("advisory-in-type", advisory(b"<AdvisoryType>{<AdvisoryType>" + UNREADABLE + b"</AdvisoryType>}</AdvisoryType>"),
     "Advisory",
     (("type", OTHER, 0),)),
    ("advisory-related-on-root",
     b"<Advisory inRelationTo='3'><Advisory><AdvisoryType>{x}</AdvisoryType></Advisory></Advisory>", "Advisory",
     (("type", OTHER, 0),)),
    ("advisory-related-to-none",
     b"<Advisory><Advisory inRelationTo='{BC041}'><AdvisoryType>{x}</AdvisoryType></Advisory></Advisory>",
     "Advisory", (("inRelationTo", NONE, 0), ("type", OTHER, 0))),
    ("advisory-related-empty",
     b"<Advisory><Advisory inRelationTo='{}'><AdvisoryType>{}</AdvisoryType></Advisory></Advisory>",
     "Advisory", (("inRelationTo", NONE, 0), ("type", OTHER, 0))),
    ("advisory-other-prefix-attribute",
     b"<Advisory><Advisory b:inRelationTo='3'><AdvisoryType>{x}</AdvisoryType></Advisory></Advisory>",
     "Advisory", (("type", OTHER, 0),)),
    ("response-to-on-root", b"<Response inResponseTo='3'><QueryResponse/></Response>", "Response", ()),
    ("response-to-none", b"<Response><QueryResponse inResponseTo='{ABC1233}'/></Response>", "Response",
     (("inResponseTo", NONE, 0),)),
    ("request-both", b"<Request ID='3'><QueryRequest ID='{4}'/></Request>", "Request", (("ID", NAMED, 4),)),
    ("id-after-prefixed", b"<SessionOk b:ID='3' id='4' ID = '{5}'/>", "SessionOk", (("ID", NAMED, 5),)),
    ("child-prefixed", b"<Request><x:QueryRequest ID='{4}'/></Request>", "Request", (("ID", NAMED, 4),)),
    ("inside-child-free", b"<Request><QueryRequest ID='{4}'><QueryRequest ID='5'/><x/></QueryRequest></Request>",
     "Request",
     (("ID", NAMED, 4),)),
)

READ = KINDS_READ + TEXT_READ + NUMBERS_READ + STATUSES_READ + TYPES_READ + PLACES_READ

NO_MESSAGES = (
    ("root-other", b"<a/>"), ("root-SessionOK", b"<SessionOK ID='1'/>"), ("root-lower", b"<ok inResponseTo='1'/>"),
    ("root-prefix-only", b"<Ok:x inResponseTo='1'/>"), ("root-longer", b"<Okay inResponseTo='1'/>"),
    ("root-shorter", b"<O inResponseTo='1'/>"),
    ("root-close-request", b"<SessionCloseRequest/>"), ("root-close-response", b"<SessionCloseResponse status='x'/>"),
    ("root-around", b"<x><Ok inResponseTo='1'/></x>"), ("root-child-name", b"<QueryRequest ID='1'/>"),
    ("no-status", b"<SessionOpenResponse/>"), ("no-status-prefixed", b"<SessionOpenResponse b:status='x'/>"),
    ("no-status-case", b"<SessionOpenResponse Status='x'/>"), ("no-ID", b"<SessionOk/>"),
    ("no-ID-case", b"<SessionOk Id='1'/>"),
    ("no-ID-prefixed", b"<SessionOk b:ID='1'/>"), ("no-ID-inside", b"<SessionOk><SessionOk ID='1'/></SessionOk>"),
    ("no-inResponseTo", b"<Ok/>"), ("no-inResponseTo-case", b"<Ok inresponseto='1'/>"),
    ("no-inResponseTo-near", b"<Ok inRelationTo='1'/>"),
    ("no-child", b"<Request/>"), ("no-child-text", b"<Request>QueryRequest</Request>"),
    ("no-child-response", b"<Response></Response>"),
    ("no-child-advisory", b"<Advisory inRelationTo='1'/>"),
    ("two-children", b"<Request><QueryRequest ID='1'/><QueryRequest ID='2'/></Request>"),
    ("two-children-other", b"<Request><QueryRequest ID='1'/><x/></Request>"),
    ("two-children-first", b"<Response><x/><QueryResponse/></Response>"),
    ("child-other", b"<Request><QueryResponse ID='1'/></Request>"),
    ("child-other-2", b"<Response><QueryRequest/></Response>"),
    ("child-case", b"<Request><queryRequest ID='1'/></Request>"),
    ("child-deeper", b"<Request><x><QueryRequest ID='1'/></x></Request>"),
    ("child-in-comment", b"<Request><!--<QueryRequest ID='1'/>--></Request>"),
    ("child-prefix-only", b"<Request><QueryRequest:x ID='1'/></Request>"),
    ("child-no-ID", b"<Request><QueryRequest/></Request>"),
    ("child-ID-on-root", b"<Request ID='1'><QueryRequest/></Request>"),
    ("child-ID-case", b"<Request><QueryRequest Id='1'/></Request>"),
    ("child-ID-deeper", b"<Request><QueryRequest><x ID='1'/></QueryRequest></Request>"),
    ("advisory-no-type", b"<Advisory><Advisory inRelationTo='1'/></Advisory>"),
    ("advisory-type-on-root", b"<Advisory><AdvisoryType/></Advisory>"),
    ("advisory-type-beside", b"<Advisory><Advisory/><AdvisoryType/></Advisory>"),
    ("advisory-type-deeper", advisory(b"<x><AdvisoryType/></x>")), ("advisory-type-case", advisory(b"<Advisorytype/>")),
    ("advisory-type-attribute", advisory(b"", b" AdvisoryType='x'")),
    ("advisory-other-child", b"<Advisory><advisory><AdvisoryType/></advisory></Advisory>"),
)


def marked_spans(marked):
    """The message without its marks, and the place and length of each value."""
    message, spans = b"", []
    for piece in marked.split(b"{"):
        value, closed, rest = piece.partition(b"}")
        if closed:
            spans.append((len(message), len(value)))
        message += value + rest
    return message, spans


def expected_answer(marked, kind, named):
    message, spans = marked_spans(marked)
    found = {}
    for name, meaning, number in named:
        if number == EMPTY_TAG:
            found[name] = Value(1, 0, 0, meaning, 0)
        else:
            found[name] = Value(1, *spans.pop(0), meaning, number)
    return message, Answer(0, 0, KINDS.index(kind) + 1, tuple(found.get(name, NOT_THERE) for name in VALUES))


def read_examples():
    """Label, message, the answer due."""
    for label, marked, kind, named in READ:
        yield (label, *expected_answer(marked, kind, named))
