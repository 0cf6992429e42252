"""Writes restricted XML in all the ways that mean the same: white space, quotes, references, prefixes, comments.

Whatever a `Pen` writes is well formed and within all limits as long as it is asked for no more than that.
"""

import re

WHITE_SPACE = " \t\r\n"
LETTERS = "abcxyzAZ_"
NAME_REST = LETTERS + "019-."
ODD_CHARACTERS = ("\t", "\n", "\r", "\r\n", "\x7f", "\x80", "\x9f", "\u00e9", "\u07ff", "\u0800", "\ud7ff", "\ue000",
                  "\ufeff", "\ufffd", "\U00010000", "\U0001fffe", "\U0010ffff", "]", "]]", "-", "--", ">", "'", '"',
                  "&",
                  "<", "]]>", "-->", "/>", "?>", ":", "=", "#")
NAMED = {"&": "amp", "<": "lt", ">": "gt", "'": "apos", '"': "quot"}
PREFIXES = ("", "", "", "aqs:", "x:", "Ok:", "_.-1:")
FREE_NAMES = ("version", "timestamp", "xmlns", "xmlns:aqs", "id", "Id", "iD", "b:ID", "b:status", "Status",
              "InResponseTo",
              "a:inResponseTo", "inrelationto", "b:inRelationTo", "IDs", "I", "xml:lang")


class Pen:
    def __init__(self, rng):
        self.rng = rng

    def chance(self, probability):
        return self.rng.random() < probability

    def one_of(self, choices):
        return self.rng.choice(choices)

    # White space, names, characters.

    def gap(self, probability=0.2):
        """White space that may be missing."""
        return self.space() if self.chance(probability) else ""

    def space(self):
        if self.chance(0.7):
            return " "
        return "".join(self.rng.choices(WHITE_SPACE, k=self.rng.randint(1, 4)))

    def part(self, length=None):
        length = length or self.rng.randint(1, 6)
        return self.one_of(LETTERS) + "".join(self.rng.choices(NAME_REST, k=length - 1))

    def name(self):
        return self.part() + (":" + self.part() if self.chance(0.3) else "")

    def reference(self, character):
        if character in NAMED and self.chance(0.6):
            return "&%s;" % NAMED[character]
        zeros = "0" * self.one_of((0, 0, 0, 1, 5))
        if self.chance(0.5):
            return "&#%s%d;" % (zeros, ord(character))
        return "&#x%s%s;" % (zeros, self.one_of(("%x", "%X")) % ord(character))

    def spelled(self, text, forbidden, references=0.1):
        """The text with some characters as references, and all of those that may not stand plain."""
        return "".join(self.reference(character) if character in forbidden or self.chance(references) else character
                       for character in text)

    def some_text(self):
        pieces = ["".join(self.rng.choices("abc XYZ019,.", k=self.rng.randint(0, 8)))]
        if self.chance(0.5):
            pieces += self.rng.choices(ODD_CHARACTERS, k=self.rng.randint(1, 3))
        self.rng.shuffle(pieces)
        return "".join(pieces)

    # Pieces of markup.

    def attribute(self, name, text, references=0.1):
        quote = self.one_of("\"'")
        value = self.spelled(text, "&<" + quote, references)
        return "%s%s=%s%s%s%s" % (name, self.gap(0.1), self.gap(0.1), quote, value, quote)

    def comment(self):
        text = re.sub("--+", "- -", self.some_text())
        return "<!--%s-->" % (text + " " if text.endswith("-") else text)

    def content_text(self, text, references=0.1):
        return self.spelled(text, "&<", references).replace("]]>", "]]&gt;")

    def empty_element(self, name, attributes=()):
        return "<%s%s%s/>" % (name, "".join(self.space() + attribute for attribute in attributes), self.gap())

    def element(self, name, attributes=(), content=""):
        if not content and self.chance(0.5):
            return self.empty_element(name, attributes)
        head = "".join(self.space() + attribute for attribute in attributes)
        return "<%s%s%s>%s</%s%s>" % (name, head, self.gap(), content, name, self.gap())

    # Things that mean nothing to the reader.

    def free_attributes(self, taken=(), most=4):
        names = {self.one_of(FREE_NAMES) if self.chance(0.5) else self.name() for _ in range(self.rng.randint(0, most))}
        names -= set(taken)
        return [self.attribute(name, self.some_text()) for name in sorted(names)]

    def free_content(self, levels=2, elements=True):
        """Text and comments, and elements so many levels down."""
        pieces = []
        for _ in range(self.rng.randint(0, 3)):
            choice = self.rng.random()
            if choice < 0.4 or not elements:
                pieces.append(self.content_text(self.some_text()))
            elif choice < 0.6:
                pieces.append(self.comment())
            else:
                content = self.free_content(levels - 1) if levels else ""
                pieces.append(self.element(self.name(), self.free_attributes(), content))
        # Two pieces of text must not make up what none of them holds.
        return "".join(pieces).replace("]]>", "]]&gt;")

    def declaration(self):
        equals = [self.gap(0.1) + "=" + self.gap(0.1) for _ in range(2)]
        quotes = [self.one_of("\"'") for _ in range(2)]
        version = "%sversion%s%s1.0%s" % (self.space(), equals[0], quotes[0], quotes[0])
        utf_8 = self.one_of(("UTF-8", "utf-8"))
        encoding = "%sencoding%s%s%s%s" % (self.space(), equals[1], quotes[1], utf_8, quotes[1])
        return "<?xml%s%s%s?>" % (version, encoding if self.chance(0.5) else "", self.gap())

    def outside(self):
        """What may stand before and after the root."""
        return "".join(self.one_of((self.space, self.comment))() for _ in range(self.one_of((0, 0, 0, 1, 2))))

    def document(self, root):
        declaration = self.declaration() if self.chance(0.3) else ""
        return (declaration + self.outside() + root + self.outside()).encode("utf-8")
