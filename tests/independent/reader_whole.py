"""Is a whole message well formed? A second opinion that shares nothing with the machine of `reader_machine`.

It looks at whole messages only: decoded by Python, cut by patterns over characters, nesting counted on the pieces. So
it says nothing about places; `reader_brute_force` gets those by asking about many messages. Limits do not count here.
"""

import re

ILLEGAL = re.compile("[^\t\n\r\u0020-\uD7FF\uE000-\uFFFD\U00010000-\U0010FFFF]")
SPACE = "[ \t\r\n]"
PART = "[A-Za-z_][A-Za-z0-9_.-]*"
NAME = "%s(?::%s)?" % (PART, PART)
EQUALS = "%s*=%s*" % (SPACE, SPACE)
ATTRIBUTE = "%s+(%s)%s(\"[^<\"]*\"|'[^<']*')" % (SPACE, NAME, EQUALS)
DECLARATION = re.compile("<\\?xml{s}+version{e}(?:'1\\.0'|\"1\\.0\")"
                         "(?:{s}+encoding{e}(?:'UTF-8'|\"UTF-8\"|'utf-8'|\"utf-8\"))?{s}*\\?>".format(s=SPACE, e=EQUALS))
COMMENT = "<!--(?:[^-]|-[^-])*-->"
ATTRIBUTE_PATTERN = re.compile(ATTRIBUTE)
PIECE = re.compile("(?P<comment>%s)|</(?P<end>%s)%s*>|<(?P<begin>%s)(?P<attributes>(?:%s)*)%s*(?P<empty>/?)>"
                   "|(?P<text>[^<]+)" % (COMMENT, NAME, SPACE, NAME, re.sub(r"\((?!\?)", "(?:", ATTRIBUTE), SPACE))
REFERENCE = re.compile("&(?:#x([0-9A-Fa-f]+)|#([0-9]+)|amp|lt|gt|apos|quot);")


def is_character(digits, base):
    digits = digits.lstrip("0")
    if len(digits) > 7:
        return False
    number = int(digits or "0", base)
    return number <= 0x10FFFF and not ILLEGAL.match(chr(number))


def references_fit(text):
    for hexadecimal, decimal in REFERENCE.findall(text):
        if hexadecimal and not is_character(hexadecimal, 16) or decimal and not is_character(decimal, 10):
            return False
    return "&" not in REFERENCE.sub("", text)


def attributes_fit(attributes):
    found = ATTRIBUTE_PATTERN.findall(attributes)
    names = [name for name, _ in found]
    return len(set(names)) == len(names) and all(references_fit(value) for _, value in found)


def text_fits(text, inside):
    if not inside:
        return not text.strip(" \t\r\n")
    return "]]>" not in text and references_fit(text)


def pieces_of(text):
    """The pieces in order, and None at the end where a rest is no piece."""
    place = 0
    while place < len(text):
        piece = PIECE.match(text, place)
        yield piece
        if piece is None:
            return
        place = piece.end()


def nests(text):
    """Do the pieces of the text make one root, with comments and white space around it?"""
    opened, roots = [], 0
    for piece in pieces_of(text):
        if piece is None:
            return False
        if piece["begin"]:
            roots += not opened
            if not attributes_fit(piece["attributes"]):
                return False
            if not piece["empty"]:
                opened.append(piece["begin"])
        elif piece["end"]:
            if not opened or opened.pop() != piece["end"]:
                return False
        elif piece["text"] and not text_fits(piece["text"], bool(opened)):
            return False
    return roots == 1 and not opened


def is_well_formed(message):
    try:
        text = message.decode("utf-8")
    except UnicodeDecodeError:
        return False
    if ILLEGAL.search(text):
        return False
    declaration = DECLARATION.match(text)
    return nests(text[declaration.end():] if declaration else text)
