"""Damages messages at random, and makes soup of markup that was never a message."""

# What is laid into messages: whole and half openings, ends, references, UTF-8 about every edge.
FRAGMENTS = (
    b"<", b">", b"/", b"!", b"?", b"&", b";", b"#", b"=", b":", b"\"", b"'", b"-", b"--", b"-->", b"]", b"]]", b"]]>",
    b"<!--",
    b"<!---->", b"<!-", b"<!", b"</", b"/>", b"<?", b"<?xml ", b"<?xml version='1.0'?>", b"<?xm", b"<?pi x?>", b"?>",
    b"<!DOCTYPE", b"<!DOCTYPE a>", b"<!DOCTYP", b"<!doctype", b"<![CDATA[", b"<![CDATA[x]]>", b"<![CDAT", b"<![cdata[",
    b"<!ELEMENT", b" ", b"\t", b"\r", b"\n", b"\r\n", b"\0", b"\x0b", b"\x0c", b"\x1f", b"\x7f", b"\x80", b"\xbf",
    b"\xc0\x80",
    b"\xc1\xbf", b"\xc2", b"\xc2\x80", b"\xdf\xbf", b"\xe0\x9f\xbf", b"\xe0\xa0\x80", b"\xe0\xa0", b"\xed\x9f\xbf",
    b"\xed\xa0\x80", b"\xef\xbb\xbf", b"\xef\xbf\xbd", b"\xef\xbf\xbe", b"\xef\xbf\xbf", b"\xf0\x8f\xbf\xbf",
    b"\xf0\x90\x80\x80", b"\xf0\x9f\xbf", b"\xf4\x8f\xbf\xbf", b"\xf4\x90\x80\x80", b"\xf5", b"\xf8\x88\x80\x80\x80",
    b"\xfe",
    b"\xff", b"&amp;", b"&lt;", b"&gt;", b"&apos;", b"&quot;", b"&am;", b"&AMP;", b"&ampx;", b"&nbsp;", b"&amp",
    b"&#55;",
    b"&#x37;", b"&#X37;", b"&#;", b"&#x;", b"&#0;", b"&#8;", b"&#9;", b"&#x1F;", b"&#xD7FF;", b"&#xD800;", b"&#xDFFF;",
    b"&#xFFFD;", b"&#xFFFE;", b"&#xFFFF;", b"&#x10FFFF;", b"&#x110000;", b"&#1114111;", b"&#1114112;",
    b"&#00000000000055;",
    b"&#xg;", b"&#5a;", b"&#99999999999;", b"&#x100000041;", b"&#4294967351;", b"a", b"_", b"1", b".", b"a:b", b"a:",
    b":a",
    b" a=''", b" a = \"b\"", b" a='1' a='2'", b" a", b" a:b='' a:b=''", b"<a>", b"</a>", b"<a/>", b"<a:b/>",
    b"<a b='<'/>",
    b" ID='1'", b" inResponseTo='3'", b"<a></b>", b"<Advisory/>", b"<AdvisoryType/>", b"\xc3\xa9",
)
SOUP = (b"<a>", b"</a>", b"<b>", b"</b>", b"<a/>", b"<a:b>", b"</a:b>", b"x", b" ", b"<", b">", b"/>", b"<a ",
        b"b='1'", b" c=\"\"", b"<!--", b"-->", b"-", b"]", b"]]", b"&amp;", b"&#65;", b"&", b"</", b"\xc3\xa9", b"\xe2",
        b"<?xml version='1.0'?>",
        b"<!DOCTYPE", b"<![CDATA[", b"<?p?>", b"<Ok inResponseTo='1'/>", b"<Ok inResponseTo='1'>", b"</Ok>")


def changed(rng, message, place):
    return message[:place] + bytes([rng.randrange(256)]) + message[place + 1:]


def nudged(rng, message, place):
    """One byte becomes a near one: another case, the next value, the top bit."""
    byte = message[place] if place < len(message) else 0
    instead = rng.choice((byte ^ 0x20, byte + 1 & 0xFF, byte - 1 & 0xFF, byte ^ 0x80))
    return message[:place] + bytes([instead]) + message[place + 1:]


def dropped(rng, message, place):
    return message[:place] + message[place + rng.choice((1, 1, 1, 2, 3, 8)):]


def inserted(rng, message, place):
    return message[:place] + rng.choice(FRAGMENTS) + message[place:]


def doubled(rng, message, place):
    length = rng.choice((1, 1, 2, 5, 20))
    return message[:place + length] + message[place:]


def cut(rng, message, place):
    return message[:place]


def swapped(rng, message, place):
    other = rng.randrange(len(message) + 1)
    first, second = sorted((place, other))
    return message[:first] + message[first:second][::-1][:2] + message[first + 2:]


DAMAGES = (changed, nudged, nudged, dropped, dropped, inserted, inserted, inserted, inserted, doubled, cut, swapped)


def some_place(rng, message):
    """Anywhere, but more often next to a byte of markup, where most states of a reader begin and end."""
    place = rng.randrange(len(message) + 1)
    if rng.random() < 0.6:
        mark = message.find(rng.choice((b"<", b">", b"=", b"&", b"\"", b"/", b" ")), place)
        if mark >= 0:
            place = mark + rng.randrange(2)
    return place


def damaged(rng, message, times):
    for _ in range(times):
        message = rng.choice(DAMAGES)(rng, message, some_place(rng, message))
    return message


def soup(rng):
    return b"".join(rng.choices(SOUP, k=rng.randint(0, 12)))


def any_bytes(rng):
    return rng.choice((b"", b"<", b"<a>", b"<a b='", b"<!--", b"<?xml ")) + bytes(
        rng.choices(range(256), k=rng.randint(0, 12)))
