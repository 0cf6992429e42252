"""A beginning that leads to each state a reader can be in, and endings that go on from there.

After each beginning every byte value is tried, alone and with each ending: that is the table of byte classes, entry by
entry, in every place where it is looked at.
"""

from reader_examples_refused import DEEP, attributes

NAME_ENDINGS = (b"/>", b"=''/>", b" b=''/>", b":a/>", b"></a>")
TEXT_ENDINGS = (b"</a>", b";</a>", b"\x80</a>", b"\xbf\xbd</a>", b"\x80\x80\x80</a>", b"]></a>")
VALUE_ENDINGS = (b"'/>", b"/>", b";'/>", b"\xbf'/>", b"\x9f\x80'/>")
DECLARATION_ENDINGS = (b"?><a/>", b"1.0'?><a/>", b"'?><a/>", b"><a/>", b"encoding='UTF-8'?><a/>", b"xml ?><a/>")
OUTSIDE_ENDINGS = (b"", b"a/>", b"<a/>", b"--><a/>")

BEGINNINGS = (
    (b"", OUTSIDE_ENDINGS), (b"<", OUTSIDE_ENDINGS), (b" ", OUTSIDE_ENDINGS), (b" <", OUTSIDE_ENDINGS),
    (b"<!", OUTSIDE_ENDINGS), (b"<!-", OUTSIDE_ENDINGS), (b"<!--", OUTSIDE_ENDINGS), (b"<!---", OUTSIDE_ENDINGS),
    (b"<!----", OUTSIDE_ENDINGS), (b"<!--x--", OUTSIDE_ENDINGS), (b"<a/>", OUTSIDE_ENDINGS),
    (b"<a/><", OUTSIDE_ENDINGS),
    (b"<a/><!", OUTSIDE_ENDINGS), (b"<a/><!--", (b"", b"-->")), (b"<?", DECLARATION_ENDINGS),
    (b"<?xm", DECLARATION_ENDINGS),
    (b"<?xml", DECLARATION_ENDINGS), (b"<?xml ", DECLARATION_ENDINGS), (b"<?xml version", DECLARATION_ENDINGS),
    (b"<?xml version=", DECLARATION_ENDINGS), (b"<?xml version='", DECLARATION_ENDINGS),
    (b"<?xml version='1.0", DECLARATION_ENDINGS), (b"<?xml version='1.0'", DECLARATION_ENDINGS),
    (b"<?xml version='1.0' ", DECLARATION_ENDINGS),
    (b"<?xml version='1.0' encoding='", (b"TF-8'?><a/>", b"tf-8'?><a/>")),
    (b"<?xml version='1.0' encoding='UTF-", DECLARATION_ENDINGS),
    (b"<?xml version='1.0' encoding='UTF-8'", DECLARATION_ENDINGS),
    (b"<?xml version='1.0'?", OUTSIDE_ENDINGS), (b"<?xml version='1.0'?>", OUTSIDE_ENDINGS),
    (b"<a", NAME_ENDINGS), (b"<a:", NAME_ENDINGS), (b"<a:a", NAME_ENDINGS), (b"<a ", NAME_ENDINGS),
    (b"<a b", NAME_ENDINGS),
    (b"<a a:", NAME_ENDINGS), (b"<a a:b", NAME_ENDINGS), (b"<a b ", (b"''/>", b"=''/>")),
    (b"<a b=", (b"'/>", b"''/>", b"\"/>")),
    (b"<a b='' b", NAME_ENDINGS), (b"<a b=''", NAME_ENDINGS), (b"<a b='' ", NAME_ENDINGS), (b"<a/", OUTSIDE_ENDINGS),
    (b"<a b='", VALUE_ENDINGS), (b"<a b='&", VALUE_ENDINGS), (b"<a b='&#", VALUE_ENDINGS),
    (b"<a b='\xe0", VALUE_ENDINGS),
    (b"<a" + attributes(16) + b" ", NAME_ENDINGS), (b"<a" + attributes(16), NAME_ENDINGS),
    (b"<a" + attributes(15) + b" ", NAME_ENDINGS),
    (b"<a>", TEXT_ENDINGS), (b"<a>]", TEXT_ENDINGS), (b"<a>]]", TEXT_ENDINGS), (b"<a>]]]", TEXT_ENDINGS),
    (b"<a>&", TEXT_ENDINGS), (b"<a>&a", TEXT_ENDINGS), (b"<a>&am", TEXT_ENDINGS), (b"<a>&amp", TEXT_ENDINGS),
    (b"<a>&g", TEXT_ENDINGS),
    (b"<a>&#", TEXT_ENDINGS), (b"<a>&#x", TEXT_ENDINGS), (b"<a>&#5", TEXT_ENDINGS), (b"<a>&#x5", TEXT_ENDINGS),
    (b"<a>&#xD80", TEXT_ENDINGS), (b"<a>&#xFFF", TEXT_ENDINGS), (b"<a>&#x1100", TEXT_ENDINGS),
    (b"<a>&#x10FFF", TEXT_ENDINGS),
    (b"<a>&#x11000", TEXT_ENDINGS), (b"<a>&#111411", TEXT_ENDINGS), (b"<a>&#1114111", TEXT_ENDINGS),
    (b"<a>\xc2", TEXT_ENDINGS), (b"<a>\xe0", TEXT_ENDINGS), (b"<a>\xe1\x80", TEXT_ENDINGS), (b"<a>\xed", TEXT_ENDINGS),
    (b"<a>\xef", TEXT_ENDINGS), (b"<a>\xef\xbf", TEXT_ENDINGS), (b"<a>\xef\xbe", TEXT_ENDINGS),
    (b"<a>\xf0", TEXT_ENDINGS),
    (b"<a>\xf1\x80", TEXT_ENDINGS), (b"<a>\xf4", TEXT_ENDINGS), (b"<a>\xf4\x8f\xbf", TEXT_ENDINGS),
    (b"<a><", (b"a></a>", b"/></a>", b"--></a>", b"a>")), (b"<a></", (b">", b"")), (b"<a></a", (b">", b"")),
    (b"<a></a ", (b">", b"")),
    (b"<ab></a", (b">", b"b>")), (b"<a:b></a:", (b">", b"b>")), (b"<a><!", (b"--></a>", b"DOCTYPE")),
    (b"<a><!--", (b"--></a>",)),
    (b"<a><!--x-", (b"></a>", b"->x</a>", b"--></a>")), (DEEP, (b"b/>", b"</a>" * 32)),
    (DEEP + b"<", (b"", b"/>", b"a>", b"DOCTYPE")),
    (b"<n></" + b"n" * 64, (b">", b"")), (b"<" + b"n" * 64, NAME_ENDINGS), (b"<a:" + b"n" * 64, NAME_ENDINGS),
    (b"<a " + b"n" * 64, NAME_ENDINGS),
)


def messages_after(beginning):
    head, endings = beginning
    for byte in range(256):
        for ending in {b"": None, **dict.fromkeys(endings)}:
            yield head + bytes([byte]) + ending
