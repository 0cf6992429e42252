"""Kind and values of a message that is known to be well formed and within all limits: a plain second pass.

Because nothing can be wrong with the message any more, one loose pattern for each piece of markup is enough. What the
values mean is in document 01 ("The seven messages"); the type's place and URI are in Tables 5 and 6 of source document
000, the status URIs in its Table 3.
"""

import re
from typing import List, NamedTuple, Tuple

from reader_answer import KINDS, NOT_THERE, VALUES, Value

STATUS_URI = "urn:nena-org:dtc:aqstcp:status:"
STATUS_MEANINGS = {STATUS_URI + "Ok": 1, STATUS_URI + "RedundantSession": 2}
TYPE_MEANINGS = {"urn:nena-org:dtc:aqs:notif:advisory:appl-x:UnreadableMessage": 1}
CHILD_OF_KIND = {"Advisory": "Advisory", "Request": "QueryRequest", "Response": "QueryResponse"}
LAST_NUMBER = 4294967295

COMMENT = re.compile(rb"<!--.*?-->", re.DOTALL)
MARKUP = re.compile(rb"<!--.*?-->|<\?.*?\?>|</[^>]*>"
                    rb"|<(?P<name>[\w.:-]+)(?P<attributes>(?:[^>\"']|\"[^\"]*\"|'[^']*')*)>", re.DOTALL)
ATTRIBUTE = re.compile(rb"([\w.:-]+)[ \t\r\n]*=[ \t\r\n]*(?:\"([^\"]*)\"|'([^']*)')")
REFERENCE = re.compile("&(?:#x([0-9A-Fa-f]+)|#([0-9]+)|(amp|lt|gt|apos|quot));")
NAMED = {"amp": "&", "lt": "<", "gt": ">", "apos": "'", "quot": '"'}
DECIMAL = re.compile("0|[1-9][0-9]{0,9}")


class Span(NamedTuple):
    place: int
    text: bytes


class Element(NamedTuple):
    name: str  # after any colon
    attributes: List[Tuple[str, Span]]  # by whole names
    children: list
    value: List[Span]  # one span when the element has ended

    def attribute(self, name):
        return next((span for found, span in self.attributes if found == name), None)


# The tree.

def begin_element(found):
    attributes = []
    for attribute in ATTRIBUTE.finditer(found.string, found.start("attributes"), found.end("attributes")):
        group = 2 if attribute.group(2) is not None else 3
        attributes.append((attribute.group(1).decode("ascii"), Span(attribute.start(group), attribute.group(group))))
    name = found.group("name").decode("ascii")
    return Element(name.rpartition(":")[2], attributes, [], [])


def root_of(message):
    """The root with all that is in it. A holder stands above it, so that it is a child like all others."""
    opened = [(Element("", [], [], []), 0)]
    for found in MARKUP.finditer(message):
        if found.group("name"):
            element = begin_element(found)
            opened[-1][0].children.append(element)
            if message.endswith(b"/>", 0, found.end()):
                element.value.append(Span(0, b""))
            else:
                opened.append((element, found.end()))
        elif found.group().startswith(b"</"):
            element, begin = opened.pop()
            element.value.append(Span(begin, message[begin:found.start()]))
    return opened[0][0].children[0]


# Meanings.

def replaced(reference):
    hexadecimal, decimal, name = reference.groups()
    if name:
        return NAMED[name]
    return chr(int(hexadecimal.lstrip("0") or "0", 16) if hexadecimal else int(decimal.lstrip("0") or "0"))


def meaning_of_attribute(text):
    spaced = re.sub("\r\n|[\t\r\n]", " ", text.decode("utf-8"))
    return REFERENCE.sub(replaced, spaced)


def meaning_of_content(text):
    """For content without elements."""
    ends_of_line = re.sub("\r\n?", "\n", COMMENT.sub(b"", text).decode("utf-8"))
    return REFERENCE.sub(replaced, ends_of_line)


def number_value(span):
    if span is None:
        return NOT_THERE
    meaning = meaning_of_attribute(span.text)
    names = DECIMAL.fullmatch(meaning) and int(meaning) <= LAST_NUMBER
    return Value(1, span.place, len(span.text), 1 if names else 0, int(meaning) if names else 0)


def status_value(span):
    if span is None:
        return NOT_THERE
    return Value(1, span.place, len(span.text), STATUS_MEANINGS.get(meaning_of_attribute(span.text), 0))


def type_value(element):
    if element is None:
        return NOT_THERE
    span, = element.value
    meaning = 0 if element.children else TYPE_MEANINGS.get(meaning_of_content(span.text), 0)
    return Value(1, span.place, len(span.text), meaning)


# The seven messages.

def values_of(kind, root, child):
    """The values that this kind has, by name."""
    if kind == "SessionOpenResponse":
        return {"status": status_value(root.attribute("status"))}
    if kind == "SessionOk":
        return {"ID": number_value(root.attribute("ID"))}
    if kind == "Ok":
        return {"inResponseTo": number_value(root.attribute("inResponseTo"))}
    if kind == "Request":
        return {"ID": number_value(child.attribute("ID"))}
    if kind == "Response":
        return {"inResponseTo": number_value(child.attribute("inResponseTo"))}
    if kind == "Advisory":
        kind_of_advisory = next((element for element in child.children if element.name == "AdvisoryType"), None)
        return {"inRelationTo": number_value(child.attribute("inRelationTo")), "type": type_value(kind_of_advisory)}
    return {}


NEEDED = {"SessionOpenResponse": "status", "SessionOk": "ID", "Ok": "inResponseTo", "Request": "ID", "Advisory": "type"}


def recognise(message):
    """The kind's number and the five values, or None if it is none of the seven messages."""
    root = root_of(message)
    if root.name not in KINDS:
        return None
    child = None
    if root.name in CHILD_OF_KIND:
        if [element.name for element in root.children] != [CHILD_OF_KIND[root.name]]:
            return None
        child = root.children[0]
    values = values_of(root.name, root, child)
    if root.name in NEEDED and not values[NEEDED[root.name]].there:
        return None
    return KINDS.index(root.name) + 1, tuple(values.get(name, NOT_THERE) for name in VALUES)
