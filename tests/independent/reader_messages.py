"""Random messages of the seven kinds, and ones that only just are none (document 01, "The seven messages")."""

from reader_pen import PREFIXES, Pen
from reader_values import STATUS_URI, TYPE_MEANINGS

UNREADABLE_URI, = TYPE_MEANINGS
STATUSES = [STATUS_URI + "Ok", STATUS_URI + "RedundantSession"]
OTHER_STATUSES = ["", STATUS_URI, "Ok", STATUS_URI + "VersionMismatch", STATUS_URI + "ServiceNotReady",
                  STATUS_URI + "ok",
                  STATUS_URI + "OK", STATUS_URI + "Ok ", " " + STATUS_URI + "Ok", STATUS_URI + "RedundantSessions",
                  STATUS_URI + "RedundantSessio", "urn:ena-org:dtc:aqstcp:status:Ok", "urn:nena-org:dtc:aqs:status:Ok",
                  STATUS_URI + "Ok\n", STATUS_URI + "Ok\r\n", STATUS_URI + "O k"]
OTHER_TYPES = ["", "UnreadableMessage", "urn:nena-org:dtc:aqs:notif:advisory:Alert",
               UNREADABLE_URI.replace("appl-x:", ""),
               "urn:nena-org:dtc:aqs:notif:advisory:GoingOutOfService", UNREADABLE_URI + " ", "\n" + UNREADABLE_URI,
               UNREADABLE_URI + "\r\n", UNREADABLE_URI.lower(), UNREADABLE_URI.replace("nena", "ena"),
               "urn:nena-org:dtc:aqs:notif:advisory:appl-x:UnsupportedVersion"]
NUMBERS = ["0", "1", "7", "9", "10", "42", "99", "4294967295", "4294967294", "999999999", "1000000000", "3999999999"]
NO_NUMBERS = ["", "00", "007", "01", "+7", "-1", " 7", "7 ", "7\n", "\t7", "7.0", "0x7", "4294967296", "4294967300",
              "9999999999", "10000000000", "42949672950", "18446744073709551623", "99999999999999999999999", "abc",
              "7a",
              "1 2", "\u0667", "\uff17", "\u00b2", "BC041"]
WRONG_KINDS = ["SessionOK", "sessionOk", "ok", "OK", "O", "Okk", "SessionCloseRequest", "SessionCloseResponse",
               "SessionOpen",
               "QueryRequest", "request", "Requests", "Respons", "advisory", "AdvisoryType", "Ok.", "Ok-", "_Ok"]


def off_by_one(rng, text):
    """The text with one character changed, dropped or doubled."""
    place = rng.randrange(len(text))
    instead = rng.choice(("", text[place] * 2, "x", text[place].swapcase() if text[place].isalpha() else "y"))
    return text[:place] + instead + text[place + 1:]


class Maker:
    """Makes messages; `fault` says how likely each thing that may be missing or wrong is so."""

    def __init__(self, rng, fault):
        self.rng, self.fault = rng, fault
        self.pen = Pen(rng)

    def faulty(self):
        return self.rng.random() < self.fault

    def number(self):
        choice = self.rng.random()
        if choice < 0.3:
            return str(self.rng.getrandbits(self.rng.randint(1, 32)))
        return self.rng.choice(NUMBERS if choice < 0.6 else NO_NUMBERS)

    def near(self, right, others):
        choice = self.rng.random()
        if choice < 0.6:
            return self.rng.choice(right)
        return self.rng.choice(others) if choice < 0.8 else off_by_one(self.rng, self.rng.choice(right))

    def attributes(self, name=None, text="", there=True):
        """Attributes in any order, with the one that counts among them unless it is left out or goes by a near name."""
        made = self.pen.free_attributes((name,))
        if name and there:
            if self.faulty():
                name = self.rng.choice(("x:" + name, name + "_", name[:-1], name.swapcase()))
            made = [other for other in made if not other.startswith(name)]
            made.append(self.pen.attribute(name, text, self.rng.choice((0, 0.1, 0.5))))
        self.rng.shuffle(made)
        return made

    def named(self, name):
        return self.rng.choice(PREFIXES) + name

    def plain(self, kind):
        """The four kinds whose content is free."""
        name, text = {"SessionOpenRequest": (None, ""), "SessionOk": ("ID", self.number()),
                      "SessionOpenResponse": ("status", self.near(STATUSES, OTHER_STATUSES)),
                      "Ok": ("inResponseTo", self.number())}[kind]
        attributes = self.attributes(name, text, not self.faulty())
        return self.pen.element(self.named(kind), attributes, self.pen.free_content())

    def around_child(self, kind, children):
        """A root around its child, with text and comments that do not count."""
        pieces = [self.pen.free_content(elements=False)]
        for child in children:
            pieces += [child, self.pen.free_content(elements=False)]
        return self.pen.element(self.named(kind), self.pen.free_attributes(), "".join(pieces))

    def children(self, name, make):
        """Just one child that is right; or none, two, or one of a wrong name."""
        if not self.faulty():
            return [make(self.named(name))]
        wrong = self.rng.choice((name.lower(), name + "s", "x", name[1:], "AdvisoryType"))
        return self.rng.choice(([], [make(name), make(name)], [make(wrong)], [make(name), self.pen.empty_element("x")],
                                [self.pen.element("x", (), make(name))]))

    def request(self):
        return self.around_child("Request", self.children("QueryRequest", lambda name: self.pen.element(
            name, self.attributes("ID", self.number(), not self.faulty()), self.pen.free_content())))

    def response(self):
        return self.around_child("Response", self.children("QueryResponse", lambda name: self.pen.element(
            name, self.attributes("inResponseTo", self.number(), self.rng.random() < 0.7), self.pen.free_content())))

    def advisory(self):
        return self.around_child("Advisory", self.children("Advisory", lambda name: self.pen.element(
            name, self.attributes("inRelationTo", self.number(), self.rng.random() < 0.7), self.types())))

    def types(self):
        """What stands in the inner Advisory: a type among other things, sometimes a second one or none."""
        pieces = [self.pen.free_content(1), "" if self.faulty() else self.type(), self.pen.free_content(1)]
        if self.rng.random() < 0.2:
            pieces.append(self.type())
        if self.faulty():
            pieces[1] = self.pen.element("x", (), pieces[1])
        return "".join(pieces)

    def type(self):
        name = self.named("AdvisoryType")
        if self.rng.random() < 0.05:
            return self.pen.empty_element(name, self.pen.free_attributes())
        text = self.near([UNREADABLE_URI], OTHER_TYPES)
        cut = self.rng.randint(0, len(text))
        between = self.rng.choice(("", "", self.pen.comment(), "<x/>", self.pen.element("x", (), text), "<!---->"))
        references = self.rng.choice((0, 0.1, 0.5))
        before, after = (self.pen.content_text(half, references) for half in (text[:cut], text[cut:]))
        return self.pen.element(name, self.pen.free_attributes(), before + between + after)

    def root(self, kind):
        if kind == "Request":
            return self.request()
        if kind == "Response":
            return self.response()
        return self.advisory() if kind == "Advisory" else self.plain(kind)

    def message(self, kind):
        root = self.root(kind)
        if self.faulty():
            wrong = self.rng.choice(WRONG_KINDS)
            root = self.pen.element(self.named(wrong), self.attributes("inResponseTo", self.number()), root)
        return self.pen.document(root)
