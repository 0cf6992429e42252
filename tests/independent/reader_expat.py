"""The model held against Python's expat, a full XML reader: what is well formed, and what values mean.

The restricted XML is a part of XML 1.0, so whatever the model finds well formed expat has to accept. The other way
round holds only where document 01 cuts nothing: `outside_the_cuts` tells where that is. Levels, attributes and name
parts may be of any number and length here.
"""

import re
from xml.parsers import expat

from checks import Difference, equal
from reader import run_machine
from reader_answer import KINDS, VALUES, kind_name
from reader_values import CHILD_OF_KIND, DECIMAL, LAST_NUMBER, STATUS_MEANINGS, TYPE_MEANINGS

CUT_OUT = re.compile(rb"<!DOCTYPE|<!\[|.<\?", re.DOTALL)
RIGHT_DECLARATION = re.compile(rb"<\?xml\s+version\s*=\s*(\"1\.0\"|'1\.0')"
                               rb"(\s+encoding\s*=\s*(\"UTF-8\"|\"utf-8\"|'UTF-8'|'utf-8'))?\s*\?>")
TEXT_STATES = ("content", "bracket", "two_brackets", "value", "comment", "comment_hyphen", "character_byte")


def outside_the_cuts(message, state, place):
    """May expat be asked about a message that died in this state at this place?"""
    if CUT_OUT.search(message) or message.startswith((b"\xef\xbb\xbf", b"\xfe\xff", b"\xff\xfe")):
        return False
    if message.startswith(b"<?") and not RIGHT_DECLARATION.match(message):
        return False
    dead_and_before = message[max(place - 1, 0):place + 1]
    if b":" in dead_and_before and state not in TEXT_STATES:
        return False  # expat reads names with any colons
    return message[place:place + 1] < b"\x80" or state in TEXT_STATES  # and names that are not ASCII


def accepted_by_expat(message):
    parser = expat.ParserCreate()
    try:
        parser.Parse(message, True)
        return True
    except expat.ExpatError:
        return False


def state_before(message, place):
    machine, _ = run_machine(message[:place])
    return machine.state.__name__


def compare_well_formed(message):
    """True if the two could be compared and agree, False if the message is none for expat."""
    machine, dead = run_machine(message)
    well_formed = dead is None and machine.is_whole()
    place = len(message) if dead is None else dead
    if not well_formed and not outside_the_cuts(message, state_before(message, place), place):
        return False
    if accepted_by_expat(message) != well_formed:
        raise Difference("%r: expat %s it" % (message, "refuses" if well_formed else "accepts"))
    return True


class Heard:
    """What expat tells of a message: the root, its children, theirs, with attributes and, of the third level, text."""

    def __init__(self, message):
        self.elements = []  # level, name after any colon, attributes, text, does it hold an element?
        self.open = []
        parser = expat.ParserCreate()
        parser.StartElementHandler, parser.EndElementHandler = self.begin, self.end
        parser.CharacterDataHandler = self.hear
        parser.Parse(message, True)

    def begin(self, name, attributes):
        if self.open:
            self.open[-1]["holds"] = True
        element = {"level": len(self.open) + 1, "name": name.split(":")[-1], "attributes": attributes, "text": "",
                   "holds": False}
        self.open.append(element)
        self.elements.append(element)

    def end(self, name):
        self.open.pop()

    def hear(self, text):
        if self.open:
            self.open[-1]["text"] += text

    def of_level(self, level):
        return [element for element in self.elements if element["level"] == level]


def number_meant(text):
    if text is None:
        return None
    names = DECIMAL.fullmatch(text) and int(text) <= LAST_NUMBER
    return (1, int(text)) if names else (0, 0)


def meanings_heard(message):
    """Kind, and the meaning and number of each value that is there, as far as expat's words tell; None for 13."""
    heard = Heard(message)
    root, children = heard.of_level(1)[0], heard.of_level(2)
    kind, attributes = root["name"], root["attributes"]
    found = {}
    if kind not in KINDS:
        return None
    if kind in CHILD_OF_KIND:
        if [child["name"] for child in children] != [CHILD_OF_KIND[kind]]:
            return None
        attributes = children[0]["attributes"]
    for name in {"SessionOk": ["ID"], "Ok": ["inResponseTo"], "Request": ["ID"], "Response": ["inResponseTo"],
                 "Advisory": ["inRelationTo"]}.get(kind, []):
        found[name] = number_meant(attributes.get(name))
    if kind == "SessionOpenResponse":
        found["status"] = (STATUS_MEANINGS.get(attributes["status"], 0), 0) if "status" in attributes else None
    if kind == "Advisory":
        types = [element for element in heard.of_level(3) if element["name"] == "AdvisoryType"]
        found["type"] = (0 if types[0]["holds"] else TYPE_MEANINGS.get(types[0]["text"], 0), 0) if types else None
    optional = ("inRelationTo",) if kind == "Advisory" else ("inResponseTo",) if kind == "Response" else ()
    if any(meant is None and name not in optional for name, meant in found.items()):
        return None
    return kind, {name: meant for name, meant in found.items() if meant is not None}


def compare_meanings(message, answer):
    """The answer is one that the model gave without refusal, or with 13."""
    given = None
    if not answer.refusal:
        given = kind_name(answer.kind), {name: (value.meaning, value.number)
                                         for name, value in zip(VALUES, answer.values) if value.there}
    equal(given, meanings_heard(message), "%r as expat reads it" % message)
