"""Refused messages, written by hand from the papers: every case that document 01 ("The restricted XML") and the rulings
on the reader's places and precedence name. Nothing here was found by running anything.

A line is a label, a message in which `{` stands before the place of refusal, and the number, which is left out in
groups where all are 9. Without a `{` the place is 0.
"""


def attributes(many):
    return b"".join(b" a%d=''" % number for number in range(many))


def not_well_formed(*lines):
    return tuple((label, marked, 9) for label, marked in lines)


FULL = b"<a" + attributes(16)  # a tag that has all the attributes it may have
DEEP = b"<a>" * 32
N64, N65 = b"n" * 64, b"n" * 65

ENDS = (
    ("empty", b"{", 9),
    ("ends-too-soon", b"<Ok>{", 9),
    ("dead-byte-itself", b"<Ok inResponseTo=\"7\"/>{x", 9),
    ("only-space", b" {", 9),
    ("only-comment", b"<!-- -->{", 9),
    ("only-less-than", b"<{", 9),
    ("text-before-root", b"{x<a/>", 9),
    ("reference-before-root", b"{&amp;<a/>", 9),
    ("text-after-root", b"<a/>{x", 9),
    ("second-root", b"<a/><{b/>", 9),
    ("second-root-cut", b"<a/><{", 9),
    ("end-tag-after-root", b"<a/><{/a>", 9),
    ("end-tag-before-root", b"<{/a>", 9),
    ("too-long", b"<a>" + b"x" * 65514 + b"</a>", 8),
    ("too-long-and-dead", b"\0" * 65521, 8),
    ("too-long-and-left-out", b"<?" + b"x" * 65519, 8),
    ("longest-dead-at-end", b"<a/>" + b" " * 65515 + b"{x", 9),
)

DECLARATIONS = (
    ("pi-cut-2", b"<?", 12), ("pi-cut-3", b"<?x", 12), ("pi-cut-4", b"<?xm", 12), ("pi-cut-5", b"<?xml", 12),
    ("pi-xml-no-space", b"<?xml?><a/>", 12), ("pi-xmlx", b"<?xmlx version='1.0'?><a/>", 12),
    ("pi-upper", b"<?XML version='1.0'?><a/>", 12), ("pi-vertical-tab", b"<?xml\x0bversion='1.0'?><a/>", 12),
    ("doctype-cut", b"<!{DOCTYP", 9),
    ("declaration-cut", b"<?xml {", 9), ("declaration-fault", b"<?xml {?", 9), ("declaration-fault-2", b"<?xml v{x", 9),
    ("declaration-version-1.1", b"<?xml version=\"1.{1\"?><a/>", 9),
    ("declaration-version-1.00", b"<?xml version=\"1.0{0\"?><a/>", 9),
    ("declaration-standalone", b"<?xml version=\"1.0\" {standalone=\"yes\"?><a/>", 9),
    ("declaration-standalone-later", b"<?xml version=\"1.0\" encoding='UTF-8' {standalone=\"yes\"?><a/>", 9),
    ("declaration-Utf-8", b"<?xml version=\"1.0\" encoding=\"U{tf-8\"?><a/>", 9),
    ("declaration-uTF-8", b"<?xml version=\"1.0\" encoding=\"u{TF-8\"?><a/>", 9),
    ("declaration-latin", b"<?xml version=\"1.0\" encoding=\"{ISO-8859-1\"?><a/>", 9),
    ("declaration-utf-16", b"<?xml version=\"1.0\" encoding=\"UTF-{16\"?><a/>", 9),
    ("declaration-no-version", b"<?xml {encoding=\"UTF-8\"?><a/>", 9),
    ("declaration-no-gap", b"<?xml version=\"1.0\"{encoding=\"UTF-8\"?><a/>", 9),
    ("declaration-twice-version", b"<?xml version=\"1.0\" {version=\"1.0\"?><a/>", 9),
    ("declaration-mixed-quotes", b"<?xml version=\"1.0{'?><a/>", 9),
    ("declaration-no-quote", b"<?xml version={1.0?><a/>", 9),
    ("declaration-odd-end", b"<?xml version=\"1.0\"?{x><a/>", 9),
    ("declaration-ends-as-tag", b"<?xml version=\"1.0\"{><a/>", 9),
    ("declaration-only", b"<?xml version=\"1.0\"?>{", 9),
    ("declaration-after-space", b" {<?xml version=\"1.0\"?><a/>", 12),
    ("declaration-after-comment", b"<!---->{<?xml version=\"1.0\"?><a/>", 12),
    ("declaration-twice", b"<?xml version=\"1.0\"?>{<?xml version=\"1.0\"?><a/>", 12),
    ("declaration-in-root", b"<a>{<?xml version=\"1.0\"?></a>", 12),
    ("declaration-after-root", b"<a/>{<?xml version=\"1.0\"?>", 12),
)

LEFT_OUT = tuple(
    ("%s-%s" % (name, where), head + b"{" + opening, 12)
    for name, opening in (("doctype", b"<!DOCTYPE"), ("cdata", b"<![CDATA["), ("pi", b"<?"))
    for where, head in (("before", b" "), ("in", b"<a>x"), ("after", b"<a/>"), ("deep", DEEP),
                        ("declared", b"<?xml version='1.0'?>"), ("after-brackets", b"<a>]]"),
                        ("after-comment", b"<a><!-- -->"))
) + (
    ("doctype-X", b"<!{DOCTYPX", 9), ("doctype-x", b"{<!DOCTYPEx", 12), ("doctype-lower", b"<!{doctype a>", 9),
    ("doctype-in-root-cut", b"<a><!{DOCTYP", 9), ("cdata-cut", b"<a><!{[CDAT", 9),
    ("cdata-no-bracket", b"<a><!{[CDATA]", 9),
    ("cdata-lower", b"<a><!{[cdata[", 9), ("conditional-section", b"<!{[INCLUDE[", 9), ("entity", b"<!{ENTITY", 9),
    ("bang-cut", b"<!{", 9), ("bang-other", b"<!{x", 9),
    ("doctype-in-value", b"<a b='{<!DOCTYPE", 9), ("doctype-in-tag", b"<a {<!DOCTYPE", 9),
    ("doctype-in-reference", b"<a>&am{<!DOCTYPE", 9), ("doctype-in-character", b"<a>\xc3{<!DOCTYPE", 9),
    ("doctype-in-comment", b"<!--<!DOCTYPE<![CDATA[<?pi{", 9),
)

ATTRIBUTES = (
    ("17th-cut", FULL + b" {b", 11), ("17th-whole", FULL + b" {b=''/>", 11), ("17th-no-gap", FULL + b"{b=''/>", 9),
    ("17th-no-name", FULL + b" {1=''/>", 9), ("17th-colon", FULL + b" {:b=''/>", 9),
    ("17th-bad-end", FULL + b" /{ ", 9),
    ("17th-repeated", FULL + b" {a0=''/>", 11), ("17th-long-part", FULL + b" {" + N65 + b"=''/>", 11),
    ("17th-long-second-part", FULL + b" {n:" + N65 + b"=''/>", 11), ("17th-bad-later", FULL + b" {b=<", 11),
    ("17th-in-child", b"<a><b" + attributes(16) + b"\t{c=''/></a>", 11),
    ("17th-xmlns", b"<a xmlns='' xmlns:a=''" + attributes(14) + b" {b=''/>", 11),
    ("16th-long-part", b"<a" + attributes(15) + b" {" + N65 + b"='' b=''/>", 14),
    ("repeated-equals", b"<a b='' b{=''/>", 9), ("repeated-space", b"<a b='' b{ =''/>", 9),
    ("repeated-cut", b"<a b='' b{", 9), ("repeated-longer-cut", b"<a b='' bc{", 9),
    ("repeated-no-equals", b"<a b='' b{/>", 9),
    ("repeated-whole-name", b"<a x:b='' x:b{=''/>", 9), ("repeated-third", b"<a b='' c='' b{=''/>", 9),
    ("no-value", b"<a b{/>", 9), ("no-quote", b"<a b={c/>", 9), ("no-equals", b"<a b {c=''/>", 9),
    ("no-gap", b"<a b=''{c=''/>", 9),
    ("less-than-in-value", b"<a b=\"{<\"/>", 9), ("ampersand-in-value", b"<a b=\"&{\"/>", 9),
    ("value-cut", b"<a b=\"c'/>{", 9), ("value-control", b"<a b=\"{\x01\"/>", 9),
)

NAMES = (
    ("part-end-tag", b"<n></{" + N65, 14), ("part-end-tag-mismatch", b"<m></{" + N65, 9),
    ("part-end-tag-past-dead", b"<nn></{n1" + b"n" * 63, 14), ("part-end-tag-64", b"<nn></n{1" + b"n" * 62, 9),
    ("part-end-tag-64-of-n", b"<n></n{" + b"n" * 63 + b">", 9), ("part-end-tag-second", b"<p:n></p:{" + N65 + b">", 14),
    ("part-end-tag-second-mismatch", b"<p:m></p:{" + N65 + b">", 9),
    ("part-end-tag-no-colon", b"<p></p{:" + N65 + b">", 9),
    ("part-end-tag-other-prefix", b"<p:n></{q:" + N65 + b">", 9),
    ("part-end-tag-of-64", b"<%s></{%s>" % (N64, N65), 14),
    ("part-tag", b"<{" + N65 + b"/>", 14), ("part-tag-cut", b"<{" + N65, 14),
    ("part-tag-second", b"<a:{" + N65 + b"/>", 14),
    ("part-tag-first-of-two", b"<{" + N65 + b":a/>", 14), ("part-tag-then-dead", b"<{" + N65 + b"\0", 14),
    ("part-64-then-dead", b"<" + N64 + b"{\0", 9), ("part-attribute", b"<a {" + N65 + b"=''/>", 14),
    ("part-attribute-second", b"<a b:{" + N65 + b"=''/>", 14),
    ("part-attribute-no-gap", b"<a b=''{" + N65 + b"=''/>", 9),
    ("part-child", b"<a><{" + N65 + b"/></a>", 14), ("part-of-second-root", b"<a/><{" + N65, 9),
    ("part-of-reference", b"<a>&{" + N65 + b";</a>", 9), ("part-of-declaration", b"<?xml v{" + b"v" * 65, 9),
    ("part-of-pi", b"{<?" + N65, 12), ("part-at-level-33", DEEP + b"{<" + N65, 10),
    ("name-colon-first", b"<{:a/>", 9), ("name-colon-last", b"<a:{/>", 9), ("name-two-colons", b"<a:b{:c/>", 9),
    ("name-digit", b"<{1/>", 9), ("name-hyphen", b"<{-a/>", 9), ("name-dot", b"<{.a/>", 9),
    ("second-part-digit", b"<a:{1/>", 9),
    ("name-not-ascii", b"<a{\xc3\xa9/>", 9), ("name-begins-not-ascii", b"<{\xc3\xa9/>", 9),
    ("name-after-space", b"<{ a/>", 9),
    ("attribute-colon-last", b"<a b:{=''/>", 9), ("slash-space", b"<a/{ >", 9), ("slash-first", b"<a /{b>", 9),
    ("end-tag-short", b"<ab></a{>", 9), ("end-tag-other", b"<ab></a{c>", 9), ("end-tag-long", b"<a></a{b>", 9),
    ("end-tag-no-prefix", b"<a:b></{b>", 9), ("end-tag-of-parent", b"<a><b></{a></b>", 9),
    ("end-tag-space", b"<a></{ a>", 9),
    ("end-tag-attribute", b"<a></a {b=''>", 9), ("end-tag-cut", b"<a></a{", 9), ("end-tag-cut-gap", b"<a></a {", 9),
    ("end-tag-case", b"<a></{A>", 9),
)

REFERENCES = not_well_formed(
    ("number-passes-hex", b"<a>&#x11000{0;</a>"), ("number-passes-decimal", b"<a>&#111411{2;</a>"),
    ("number-passes-after-zeros", b"<a>&#x0000000011000{0;</a>"), ("number-passes-far", b"<a>&#x41000{00041;</a>"),
    ("number-0", b"<a>&#0{;</a>"), ("number-8", b"<a>&#8{;</a>"), ("number-31", b"<a>&#31{;</a>"),
    ("number-x1F", b"<a>&#x1F{;</a>"), ("number-D800", b"<a>&#xD800{;</a>"), ("number-DFFF", b"<a>&#57343{;</a>"),
    ("number-FFFE", b"<a>&#xFFFE{;</a>"), ("number-FFFF", b"<a>&#65535{;</a>"), ("number-zeros", b"<a>&#x000{;</a>"),
    ("number-X", b"<a>&#{X37;</a>"), ("number-none", b"<a>&#{;</a>"), ("number-none-hex", b"<a>&#x{;</a>"),
    ("number-letter", b"<a>&#5{a;</a>"), ("number-g", b"<a>&#x5{g;</a>"), ("number-sign", b"<a>&#{+5;</a>"),
    ("number-space", b"<a>&#55{ ;</a>"), ("number-cut", b"<a>&#55{"), ("number-D800-cut", b"<a>&#xD800{"),
    ("named-other", b"<a>&{nbsp;</a>"), ("named-upper", b"<a>&{AMP;</a>"), ("named-late", b"<a>&am{x;</a>"),
    ("named-between", b"<a>&ap{p;</a>"), ("named-long", b"<a>&amp{x;</a>"), ("named-space", b"<a>&{ amp;</a>"),
    ("named-none", b"<a>&{;</a>"), ("named-no-semicolon", b"<a>&amp{</a>"), ("named-in-value", b"<a b='&l{'/>"),
    ("named-two-ways", b"<a>&a{;</a>"), ("named-cut", b"<a>&{"),
)

# Bytes that are dead at once in text: controls, and what begins no character.
DEAD_AT_ONCE = (*range(0x00, 0x09), 0x0B, 0x0C, *range(0x0E, 0x20), *range(0x80, 0xC2), *range(0xF5, 0x100))
CHARACTERS = not_well_formed(
    *(("byte-%02x" % byte, b"<a>{" + bytes([byte])) for byte in DEAD_AT_ONCE),
    ("utf8-e0-9f", b"<a>\xe0{\x9f\xbf"), ("utf8-ed-a0", b"<a>\xed{\xa0\x80"),
    ("utf8-f0-8f", b"<a>\xf0{\x8f\xbf\xbf"), ("utf8-f4-90", b"<a>\xf4{\x90\x80\x80"),
    ("utf8-fffe", b"<a>\xef\xbf{\xbe"), ("utf8-ffff", b"<a>\xef\xbf{\xbf"),
    ("utf8-cut-2", b"<a>\xc3{"), ("utf8-cut-3", b"<a>\xe2\x82{"), ("utf8-cut-4", b"<a>\xf0\x9f\x98{"),
    ("utf8-broken-2", b"<a>\xc3{<"), ("utf8-broken-3", b"<a>\xe2\x82{x"), ("utf8-broken-4", b"<a>\xf0\x9f\x98{\xc3"),
    ("utf8-in-value", b"<a b='\xe0{\x9f"), ("utf8-in-comment", b"<!--\xed{\xa0"),
    ("bom", b"{\xef\xbb\xbf<a/>"), ("bom-after-space", b" {\xef\xbb\xbf<a/>"), ("utf-16", b"{\xff\xfe<\0"),
    ("space-not-ascii", b"<a{\xc2\xa0/>"),
)

TEXT = not_well_formed(
    ("brackets", b"<a>]]{></a>"), ("brackets-three", b"<a>]]]{></a>"), ("brackets-later", b"<a>x]]y]]{></a>"),
    ("brackets-after-reference", b"<a>&amp;]]{></a>"), ("brackets-after-parted", b"<a>]]<b/>]]{></a>"),
    ("comment-hyphens", b"<!-- --{ --><a/>"), ("comment-three", b"<!----{->"),
    ("comment-three-late", b"<!--x--{-><a/>"), ("comment-open", b"<!--->{"), ("comment-open-2", b"<!-->{"),
    ("comment-one-hyphen", b"<!-{x--><a/>"), ("comment-cut", b"<!--x--{"),
    ("comment-control", b"<!--{\x01--><a/>"), ("comment-in-tag", b"<a {<!-- -->/>"),
    ("comment-in-end-tag", b"<a></a{<!-- -->>"),
)

LEVELS = (
    ("level-33-cut", DEEP + b"<{", 9), ("level-33-name", DEEP + b"{<b", 10),
    ("level-33-whole", DEEP + b"{<b/>" + b"</a>" * 32, 10),
    ("level-33-end-tag", DEEP + b"</a{", 9), ("level-33-wrong-end-tag", DEEP + b"</{b>", 9),
    ("level-33-bang", DEEP + b"<!{", 9),
    ("level-33-bang-other", DEEP + b"<!{x", 9), ("level-33-digit", DEEP + b"<{1", 9),
    ("level-33-space", DEEP + b"<{ b", 9),
    ("level-33-colon", DEEP + b"<{:b", 9), ("level-33-after-text", DEEP + b"x{<b", 10),
    ("level-33-after-siblings", b"<a>" * 31 + b"<b></b><b/><b>{<c/>", 10), ("level-33-underscore", DEEP + b"{<_", 10),
    ("level-33-later-fault", DEEP + b"{<b\0", 10), ("level-33-earlier-fault", DEEP + b"{\0<b", 9),
    ("level-32-cut", DEEP + b"{", 9),
)

GROUPS = (ENDS, DECLARATIONS, LEFT_OUT, ATTRIBUTES, NAMES, REFERENCES, CHARACTERS, TEXT, LEVELS)


def refused_examples():
    """Label, message, refusal, place."""
    for group in GROUPS:
        for label, marked, refusal in group:
            yield label, marked.replace(b"{", b""), refusal, max(marked.find(b"{"), 0)
