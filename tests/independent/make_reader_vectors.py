"""Makes the fixed reader vectors:  python3 tests/independent/make_reader_vectors.py > tests/vectors/reader.txt

`reader_vector_text` describes the form. Everything expected comes from the model in `reader`; the hand-written
examples, whose labels name the case in the papers, are also held against what was written beside them
(`reader_self_tests`).
"""

import sys

from paper_samples import paper_samples
from reader import LONGEST_MESSAGE, LONGEST_PART, MOST_ATTRIBUTES, MOST_LEVELS, read_message
from reader_examples_read import NO_MESSAGES, UNREADABLE, read_examples
from reader_examples_refused import attributes, refused_examples
from reader_vector_text import Vector, vector_to_text

# Whole messages that are cut at every place; between them they hold every kind of markup.
CUT_AT_EVERY_PLACE = (
    ("ok", b"<?xml version=\"1.0\" encoding='UTF-8' ?>\n<t:Ok inResponseTo = \"7\"/> <!-- - -->\n"),
    ("advisory", b"<Advisory><q:Advisory inRelationTo='&#55;'>]]&gt;<q:AdvisoryType>%s</q:AdvisoryType ></q:Advisory>"
     b"</Advisory>" % UNREADABLE.replace(b"Mess", b"<!--x-->M&#x65;ss")),
    ("request", "<Request>\r\n<a:QueryRequest a:b=\"&lt;'\u00e9'\" ID='4294967295'><b>\u20ac]</b><c/>\U0001f691"
     "</a:QueryRequest></Request>".encode("utf-8")),
    ("open-response",
     b"<SessionOpenResponse  status\t=\n'urn:nena-org:dtc:aqstcp:status:RedundantSession' ></SessionOpenResponse\n>"),
)


def examples():
    for label, message, _, _ in refused_examples():
        yield "refused-" + label, message
    for label, message in NO_MESSAGES:
        yield "none-" + label, message
    for label, message, _ in read_examples():
        yield "read-" + label, message


def listing_items():
    """The two items of the sample in document 01, "The listing"."""
    yield "listing-1", b'<Ok inResponseTo="7"/>'
    yield "listing-2", b"<Ok>"


def samples_of_the_papers():
    for label, message, _ in paper_samples():
        yield "paper-" + label, message


def cut_everywhere():
    for label, message in CUT_AT_EVERY_PLACE:
        for place in range(len(message) + 1):
            yield "cut-%s-%d" % (label, place), message[:place]


def dropped_everywhere():
    """Each byte of a message missing: what stood whole no longer fits."""
    for label, message in CUT_AT_EVERY_PLACE:
        for place in range(len(message)):
            yield "dropped-%s-%d" % (label, place), message[:place] + message[place + 1:]


def levels():
    for many in (1, 2, MOST_LEVELS - 1, MOST_LEVELS, MOST_LEVELS + 1, MOST_LEVELS + 2, 256, 1000):
        names = [b"SessionOpenRequest"] + [b"a"] * (many - 1)
        begin, end = b"".join(b"<%s>" % name for name in names), b"".join(b"</%s>" % name for name in reversed(names))
        yield "levels-%d" % many, begin + end
        yield "levels-%d-cut" % many, begin
        yield "levels-%d-empty-tag" % many, begin[:-1] + b"/>" + end[len(names[-1]) + 3:]
        yield "levels-%d-siblings" % many, begin + b"<!-- -->x" + end.replace(b"</a>", b"</a><b/>")


def many_attributes():
    for many in (0, 1, MOST_ATTRIBUTES - 1, MOST_ATTRIBUTES, MOST_ATTRIBUTES + 1, MOST_ATTRIBUTES + 2, 40):
        for name in (b"SessionOpenRequest", b"x:SessionOpenRequest"):
            tag = name + attributes(many)
            yield "attributes-%d-%s" % (many, name.decode()), b"<%s/>" % tag
            yield "attributes-%d-%s-open" % (many, name.decode()), b"<%s ></%s>" % (tag, name)
            yield "attributes-%d-%s-cut" % (many, name.decode()), b"<%s " % tag
        two = b"<SessionOpenRequest%s><a%s/></SessionOpenRequest>" % (attributes(MOST_ATTRIBUTES), attributes(many))
        yield "attributes-%d-child" % many, two


def parts():
    for length in (1, LONGEST_PART - 1, LONGEST_PART, LONGEST_PART + 1, LONGEST_PART + 2, 256 + 1, 300):
        part = b"n" * length
        for label, form in (("tag", b"<%s/>"), ("tag-cut", b"<%s"), ("tag-second", b"<a:%s/>"),
                            ("tag-first", b"<%s:a/>"),
                            ("tag-both", b"<%s:%s></%s:%s>"), ("attribute", b"<SessionOpenRequest %s=''/>"),
                            ("attribute-second", b"<SessionOpenRequest a:%s=''/>"), ("attribute-cut", b"<a b='' %s"),
                            ("attribute-repeated", b"<a %s='' %s=''/>"), ("end-tag", b"<n></%s>"),
                            ("end-tag-cut", b"<n></%s"),
                            ("end-tag-second", b"<a:n></a:%s>"), ("end-tag-other", b"<m></%s>"),
                            ("end-tag-dead", b"<nn></n.%s>"),
                            ("end-tag-colon", b"<n></n:%s>"), ("end-tag-after-64", b"<" + b"n" * 64 + b"></%s>"),
                            ("reference", b"<a>&%s;</a>"), ("value", b"<SessionOpenRequest a='%s'/>")):
            yield "parts-%d-%s" % (length, label), form.replace(b"%s", part)


def lengths():
    for length in (LONGEST_MESSAGE - 1, LONGEST_MESSAGE, LONGEST_MESSAGE + 1, LONGEST_MESSAGE + 2, 65936):
        for label, form, filler in (
                ("text", b"<Response><QueryResponse inResponseTo='7'>%s</QueryResponse></Response>", b"t"),
                ("after", b"<Ok inResponseTo='7'/>%s", b" "), ("before", b"%s<Ok inResponseTo='7'/>", b"\n"),
                ("value", b"<Ok inResponseTo='%s'/>", b"7"), ("zeros", b"<Ok inResponseTo='&#%s55;'/>", b"0"),
                ("comment", b"<!--%s--><SessionOpenRequest/>", b">"),
                ("elements", b"<SessionOpenRequest>%s</SessionOpenRequest>", b"<a/>"),
                ("open", b"<SessionOpenRequest>%s", b"]"), ("dead", b"<SessionOpenRequest/>%s\0", b"\t"),
                ("name", b"<%s/>", b"n"),
                ("control", b"\0%s", b"x")):
            room = length - len(form) + 2
            filled = b" " * (room % len(filler)) + filler * (room // len(filler))
            yield "length-%d-%s" % (length, label), form % filled


GROUPS = (listing_items, examples, samples_of_the_papers, cut_everywhere, dropped_everywhere, levels, many_attributes,
          parts, lengths)


def all_vectors():
    for group in GROUPS:
        for name, message in group():
            yield Vector(name, message, read_message(message))


def vectors_text():
    return "".join(vector_to_text(vector) + "\n" for vector in all_vectors())


if __name__ == "__main__":
    sys.stdout.write(vectors_text())
