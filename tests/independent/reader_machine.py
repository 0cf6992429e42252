"""The restricted XML as a machine that is fed byte after byte and is either alive or dead.

Document 01 ("The restricted XML") places refusal 9 at the first byte after which no continuation is readable. Here that
is the byte that kills the machine: each state lets pass exactly the bytes that leave a way to the end. The limits
(8, 10, 11, 14) and the openings of 12 are not the machine's business; it only notes the places they are told from.

`reader_brute_force` shows for many inputs that a live machine can be led to the end and a dead one cannot be revived.
"""

from typing import NamedTuple

from reader_characters import WHITE_SPACE, Characters

NAME_START = frozenset(b"ABCDEFGHIJKLMNOPQRSTUVWXYZabcdefghijklmnopqrstuvwxyz_")
NAME = NAME_START | frozenset(b"0123456789-.")


class Element(NamedTuple):
    """A `<` with a name start byte after it, where an element may begin."""
    place: int
    level: int


class Attribute(NamedTuple):
    """A name start byte where an attribute may begin."""
    place: int
    number: int  # from 1, within its tag


class Machine(Characters):
    def __init__(self):
        self.state = self.at_start
        self.place = 0         # of the next byte
        self.markups = []      # places of each `<` where markup may begin
        self.elements = []
        self.attributes = []
        self.parts = []        # places of the first bytes of name parts
        self.open = []         # whole names of the open elements

    def feed(self, byte):
        """Takes one byte. True as long as the machine is alive; a dead one must not be fed."""
        self.state = self.state(byte)
        self.place += 1
        return self.state is not None

    def is_whole(self):
        """May the message end here?"""
        return self.state == self.after_root

    # Before the root.

    def at_start(self, byte):
        after = self.prolog(byte)
        return self.start_markup if after == self.prolog_markup else after

    def start_markup(self, byte):
        if byte in b"?":
            return self.spell((b"xml",), self.declaration_gap)
        return self.prolog_markup(byte)

    def prolog(self, byte):
        return self.outside(byte, self.prolog, self.prolog_markup)

    def outside(self, byte, here, markup):
        """White space and markup, as they stand around the root."""
        if byte in WHITE_SPACE:
            return here
        if byte in b"<":
            self.markups.append(self.place)
            return markup
        return None

    def prolog_markup(self, byte):
        if byte in NAME_START:
            return self.begin_element(byte)
        return self.begin_comment(byte, self.prolog)

    # The declaration.

    def declaration_gap(self, byte):
        return self.before_version if byte in WHITE_SPACE else None

    def before_version(self, byte):
        if byte in WHITE_SPACE:
            return self.before_version
        self.values, self.after_value_of_declaration = (b"1.0",), self.after_version
        self.spell((b"version",), self.declaration_equals)
        return self.spelling(byte)

    def declaration_equals(self, byte):
        if byte in WHITE_SPACE:
            return self.declaration_equals
        return self.declaration_quote if byte in b"=" else None

    def declaration_quote(self, byte):
        if byte in WHITE_SPACE:
            return self.declaration_quote
        if byte not in b"\"'":
            return None
        return self.spell([value + bytes([byte]) for value in self.values], self.after_value_of_declaration)

    def after_version(self, byte):
        if byte in WHITE_SPACE:
            return self.before_encoding
        return self.end_declaration(byte)

    def before_encoding(self, byte):
        if byte not in b"e":
            return self.after_version(byte)
        self.values, self.after_value_of_declaration = (b"UTF-8", b"utf-8"), self.after_encoding
        return self.spell((b"ncoding",), self.declaration_equals)

    def after_encoding(self, byte):
        return self.after_encoding if byte in WHITE_SPACE else self.end_declaration(byte)

    def end_declaration(self, byte):
        return self.spell((b">",), self.prolog) if byte in b"?" else None

    # Comments.

    def begin_comment(self, byte, after_comment):
        """Takes the byte after `<`, which of all openings with `!` can be a comment's only."""
        self.after_comment = after_comment
        return self.spell((b"--",), self.comment) if byte in b"!" else None

    def comment(self, byte):
        return self.comment_hyphen if byte in b"-" else self.character(byte, self.comment)

    def comment_hyphen(self, byte):
        if byte in b"-":
            return self.spell((b">",), self.after_comment)
        return self.comment(byte)

    # Start tags and empty-element tags.

    def begin_element(self, byte):
        self.elements.append(Element(self.place - 1, len(self.open) + 1))
        self.attribute_names = set()
        return self.begin_name(byte, self.tag_name)

    def begin_name(self, byte, then):
        self.name = bytearray()
        self.then_in_name = then
        return self.begin_part(byte)

    def begin_part(self, byte):
        if byte not in NAME_START:
            return None
        self.parts.append(self.place)
        self.name.append(byte)
        return self.then_in_name

    def more_of_name(self, byte):
        """The state after a byte that goes on with the name, or None if it does not."""
        if byte in NAME:
            self.name.append(byte)
            return self.then_in_name
        if byte in b":" and byte not in self.name:
            self.name.append(byte)
            return self.begin_part
        return None

    def tag_name(self, byte):
        more = self.more_of_name(byte)
        if more is None:
            self.tag = bytes(self.name)
            return self.after_value(byte)
        return more

    def after_value(self, byte):
        """Also after the tag's name: white space, or the tag ends."""
        if byte in WHITE_SPACE:
            return self.tag_gap
        return self.end_tag_open(byte)

    def tag_gap(self, byte):
        if byte in WHITE_SPACE:
            return self.tag_gap
        if byte in NAME_START:
            self.attributes.append(Attribute(self.place, len(self.attribute_names) + 1))
            return self.begin_name(byte, self.attribute_name)
        return self.end_tag_open(byte)

    def end_tag_open(self, byte):
        if byte in b">":
            self.open.append(self.tag)
            return self.content
        return self.empty_tag if byte in b"/" else None

    def empty_tag(self, byte):
        return self.after_element() if byte in b">" else None

    def after_element(self):
        return self.content if self.open else self.after_root

    def attribute_name(self, byte):
        more = self.more_of_name(byte)
        if more is not None:
            return more
        if bytes(self.name) in self.attribute_names:
            return None  # only now: a longer name could still have been a new one
        return self.attribute_equals(byte)

    def attribute_equals(self, byte):
        if byte in WHITE_SPACE:
            return self.attribute_equals
        if byte in b"=":
            self.attribute_names.add(bytes(self.name))
            return self.before_value
        return None

    def before_value(self, byte):
        if byte in WHITE_SPACE:
            return self.before_value
        self.quote = byte
        return self.value if byte in b"\"'" else None

    def value(self, byte):
        if byte == self.quote:
            return self.after_value
        return None if byte in b"<" else self.character_or_reference(byte, self.value)

    # Content.

    def content(self, byte):
        if byte in b"<":
            self.markups.append(self.place)
            return self.content_markup
        if byte in b"]":
            return self.bracket
        return self.character_or_reference(byte, self.content)

    def bracket(self, byte):
        return self.two_brackets if byte in b"]" else self.content(byte)

    def two_brackets(self, byte):
        return None if byte in b">" else self.bracket(byte)

    def content_markup(self, byte):
        if byte in b"/":
            self.matched = 0
            return self.end_tag_name
        if byte in NAME_START:
            return self.begin_element(byte)
        return self.begin_comment(byte, self.content)

    def end_tag_name(self, byte):
        name = self.open[-1]
        if self.matched == len(name):
            return self.end_tag_gap(byte)
        if byte != name[self.matched]:
            return None
        if self.matched == 0 or name[self.matched - 1] in b":":
            self.parts.append(self.place)
        self.matched += 1
        return self.end_tag_name

    def end_tag_gap(self, byte):
        if byte in b">":
            self.open.pop()
            return self.after_element()
        return self.end_tag_gap if byte in WHITE_SPACE else None

    # After the root.

    def after_root(self, byte):
        return self.outside(byte, self.after_root, self.after_root_markup)

    def after_root_markup(self, byte):
        return self.begin_comment(byte, self.after_root)
