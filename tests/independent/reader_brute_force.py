"""Places of 9 by brute force, to check the machine of `reader_machine` with the whole-message check of `reader_whole`.

Alive means: there is an ending that makes the message well formed. `ending_of` builds one, byte by byte, and
`reader_whole`, which knows nothing of states, has to find the whole well formed. Dead means: there is none. That is
tried over all words of a small alphabet (`check_context`) and over many mixed endings (`check_dead`).
"""

import copy
import itertools

from reader_characters import is_legal
from checks import Difference
from reader_machine import Machine
from reader_whole import is_well_formed

# The next byte on the way to the end, for each state in which it is always the same.
NEXT_BYTE = {
    "at_start": b"<", "start_markup": b"e", "prolog": b"<", "prolog_markup": b"e", "declaration_gap": b" ",
    "before_version": b"v", "declaration_equals": b"=", "declaration_quote": b"'", "after_version": b"?",
    "before_encoding": b"?", "after_encoding": b"?", "comment": b"-", "comment_hyphen": b"-", "begin_part": b"e",
    "tag_name": b"/", "after_value": b"/", "tag_gap": b"/", "empty_tag": b">", "attribute_equals": b"=",
    "before_value": b"'", "content": b"<", "bracket": b"<", "two_brackets": b"<", "content_markup": b"/",
    "end_tag_gap": b">", "after_root_markup": b"!", "reference": b"l", "number_kind": b"9", "first_digit": b"9",
}


def next_byte(machine):
    state = machine.state.__name__
    if state in NEXT_BYTE:
        return NEXT_BYTE[state][0]
    if state == "spelling":
        return min(machine.words, key=len)[0]
    if state == "attribute_name":
        return b"x"[0] if bytes(machine.name) in machine.attribute_names else b"="[0]
    if state == "value":
        return machine.quote
    if state == "end_tag_name":
        return (machine.open[-1] + b">")[machine.matched]
    if state == "number_digits":
        return b";"[0] if is_legal(machine.number) else b"9"[0]
    if state == "character_byte":
        return next(byte for byte in range(0x80, 0xC0) if fork(machine).feed(byte))
    raise Difference("no way to the end is known for the state %s" % state)


def fork(machine):
    """A copy that can be fed without the machine noticing."""
    other = copy.copy(machine)
    other.state = getattr(other, machine.state.__name__)
    for name, held in vars(machine).items():
        if isinstance(held, (list, set, bytearray)):
            setattr(other, name, copy.copy(held))
        elif getattr(held, "__self__", None) is machine:
            setattr(other, name, getattr(other, held.__name__))
    return other


def ending_of(machine):
    """Bytes that lead the live machine to the end of a message."""
    walker, ending = fork(machine), bytearray()
    while not walker.is_whole():
        byte = next_byte(walker)
        ending.append(byte)
        if not walker.feed(byte) or len(ending) > 5000:
            raise Difference("the way to the end leads nowhere: %r" % bytes(ending))
    return bytes(ending)


def check_alive(machine, prefix):
    whole = prefix + ending_of(machine)
    if not is_well_formed(whole):
        raise Difference("%r is called alive, but %r is not well formed" % (prefix, whole))
    if machine.is_whole() != is_well_formed(prefix):
        raise Difference("%r: may it end here?" % prefix)


def check_every_prefix(message):
    """Each live prefix of the message can be ended; the place of death is given back, or None."""
    machine = Machine()
    check_alive(machine, b"")
    for place, byte in enumerate(message):
        if not machine.feed(byte):
            return place
        check_alive(machine, message[:place + 1])
    return None


# Dead ends.

BITS = [bytes([byte]) for byte in b"a1-.: \t=\"'<>/?!];#x&08FfX\x80\x8f\x9f\xa0\xbd\xbf"] + [
    b"-->", b"?>", b"='", b"=\"\"", b"amp;", b"--", b"/>", b"</a>", b"<a/>"]


def mixed_endings(open_names):
    """Two bits of any kind, then what closes what is open: as text, as a tag, a value, a comment or a reference."""
    closing = b"".join(b"</%s>" % name for name in reversed(open_names))
    inner_closing = b"".join(b"</%s>" % name for name in reversed(open_names[:-1]))
    ends = [closing, inner_closing, b">" + closing, b"/>" + closing, b">" + inner_closing, b"'/>" + closing,
            b"\"/>" + closing, b";" + closing, b"-->" + closing, b"?><a/>", b"<a/>"]
    for first, second in itertools.product([b""] + BITS, [b""] + BITS):
        for end in ends:
            yield first + second + end


def check_dead(message, place):
    """No continuation of the message's bytes up to and with the dead one is well formed, so far as can be tried."""
    machine = Machine()
    for byte in message[:place]:
        machine.feed(byte)
    dead = message[:place + 1]
    for ending in mixed_endings(machine.open):
        if is_well_formed(dead + ending):
            raise Difference("%r is called dead, but %r is well formed" % (dead, dead + ending))


# All words of a small alphabet, in a context: head, alphabet, longest word, tails.

CONTEXTS = (
    (b"", b"<a/> >", 6, (b"", b"/>", b"<a/>")),
    (b"", b"<a/>b", 7, (b"",)),
    (b"<!-", b"->a<", 6, (b"<a/>", b"--><a/>")),
    (b"<a/><!", b"->a ", 6, (b"", b"-->")),
    (b"<a>", b"]>&<;", 5, (b"</a>",)),
    (b"<a>", b"<!->]", 6, (b"</a>", b"--></a>")),
    (b"<a>", b"</ab>", 6, (b"", b"</a>")),
    (b"<a:b></", b"a:b> ", 5, (b"",)),
    (b"<a", b" b='\"", 6, (b"/>", b"'/>", b"\"/>")),
    (b"<a b=''", b" bc=':", 6, (b"/>", b"'/>", b"=''/>")),
    (b"<a", b":ab1. ", 5, (b"/>", b"=''/>")),
    (b"<a b='", b"<>&;'\"", 5, (b"'/>", b"/>")),
    (b"<a>&", b"#x0D8F9;", 5, (b";</a>", b"</a>")),
    (b"<a>&#x", b"0D8Ff;", 5, (b";</a>", b"</a>")),
    (b"<a>&#x1", b"01F;", 6, (b";</a>", b"</a>")),
    (b"<a>&#1", b"014;", 7, (b";</a>", b"</a>")),
    (b"<a>&", b"amplt;os", 5, (b"</a>", b";</a>", b"s;</a>", b"ot;</a>")),
    (b"<a>", b"\xc1\xc2\xe0\xed\xef\x80\x9f\xa0\xbf\xbe\xbd", 4, (b"</a>",)),
    (b"<a>", b"\xf0\xf4\xf5\x80\x8f\x90\xbf", 5, (b"</a>",)),
    (b"<?", b"xml \tv?>", 5, (b"<a/>", b" version='1.0'?><a/>", b"ersion='1.0'?><a/>")),
    (b"<?xml version", b"=' \"1.0?", 5, (b"?><a/>", b"1.0'?><a/>", b"><a/>")),
    (b"<?xml version='1.0'", b" e?>'", 5, (b"><a/>", b"<a/>", b"ncoding='UTF-8'?><a/>")),
    (b"<?xml version='1.0' encoding=", b"'uUtTfF-8", 3, (b"f-8'?><a/>", b"F-8'?><a/>", b"tf-8'?><a/>")),
)


def check_context(head, alphabet, longest, tails):
    """The machine's dead words have no well formed continuation here, its live ones can be ended."""
    live = {b""}
    for length in range(longest + 1):
        for letters in itertools.product(alphabet, repeat=length):
            word = bytes(letters)
            # Words that begin with a dead word stay in the loop: they are the continuations that must not be readable.
            machine = fed(head + word) if word[:-1] in live else None
            if machine:
                live.add(word)
                check_alive(machine, head + word)
            for tail in tails:
                if is_well_formed(head + word + tail) and not machine:
                    raise Difference("%r is called dead, but %r is well formed" % (head + word, head + word + tail))


def fed(prefix):
    """The machine after these bytes, or None if they kill it."""
    machine = Machine()
    for byte in prefix:
        if not machine.feed(byte):
            return None
    return machine
