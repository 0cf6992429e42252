"""Messages about the limits: levels, attributes, name parts, length (document 01, "The restricted XML")."""

from reader_pen import Pen

LEVELS, ATTRIBUTES, PART, LENGTH = 32, 16, 64, 65520


def about(rng, limit):
    return max(1, limit + rng.choice((-1, 0, 0, 1, 1, 2)))


def levels(rng, many=None):
    """Elements in elements; the deepest has this level, and markup of another kind may follow it."""
    pen = Pen(rng)
    many = many or about(rng, LEVELS)
    root = rng.choice(("SessionOpenRequest", "x", "b:SessionOpenRequest"))
    names = [root] + [pen.name() if rng.random() < 0.3 else rng.choice("abc") for _ in range(many - 1)]
    deepest = rng.choice(("", "", "<", "</", "<!", "<!---->", "<?", "<1", "<a", "< a", "<a/>", "x<a", "<![CDATA[",
                          "<!DOCTYP"))
    begin = "".join("<%s>" % name for name in names)
    end = "".join("</%s>" % name for name in reversed(names))
    if rng.random() < 0.3:
        end = rng.choice(("", end[:-1], end[len(names[-1]) + 3:]))
    return (begin + deepest + end).encode("utf-8")


def siblings(rng):
    """Many elements, few levels: a counter that never falls again runs over."""
    many = rng.randint(20, 60)
    inner = "".join(rng.choice(("<a/>", "<a></a>", "<a><b/></a>", "<b:c><a></a ></b:c>")) for _ in range(many))
    return ("<SessionOpenRequest>%s</SessionOpenRequest>" % inner).encode("utf-8")


def attributes(rng, many=None):
    pen = Pen(rng)
    many = many or about(rng, ATTRIBUTES)
    names = ["a%d" % number for number in range(many)]
    for place in rng.sample(range(many), min(many, 3)):
        names[place] = rng.choice(("xmlns:n%d" % place, "b:a%d" % place, "inResponseTo", "x" * rng.randint(60, 66)))
    gaps = [pen.space() for _ in names]
    if rng.random() < 0.2:
        gaps[-1] = rng.choice(("", "1", ":", "/"))
    pieces = [gap + name + "='%d'" % number for number, (gap, name) in enumerate(zip(gaps, names))]
    if rng.random() < 0.2:
        pieces[-1] = pieces[-1][:rng.randint(0, len(pieces[-1]))]
    tag = "<%s%s%s/>" % (rng.choice(("Ok", "x", "b:Ok")), "".join(pieces), pen.gap())
    if rng.random() < 0.5:
        tag = "<Ok inResponseTo='1'>%s</Ok>" % tag
    return tag.encode("utf-8")


def long_part(rng):
    return rng.choice("nm_") * about(rng, PART)


def part_of_tag(rng):
    name = long_part(rng)
    if rng.random() < 0.5:
        name = rng.choice(("n:" + name, name + ":n", name + ":" + long_part(rng)))
    form = rng.choice(("<%s/>", "<%s></%s>", "<SessionOpenRequest><%s x=''/></SessionOpenRequest>", "<%s", "<%s:"))
    return (form.replace("%s", name)).encode("utf-8")


def part_of_attribute(rng):
    name = long_part(rng)
    if rng.random() < 0.5:
        name = rng.choice(("n:" + name, name + ":n"))
    form = rng.choice(("<SessionOpenRequest %s=''/>", "<SessionOpenRequest a='' %s", "<x %s='' %s=''/>", "<x  %s>",
                       "<Ok inResponseTo='1'%s=''/>"))
    return (form.replace("%s", name)).encode("utf-8")


def part_of_end_tag(rng):
    """Names in end tags that are longer than any start tag's may be, so that the tag also mismatches somewhere."""
    letter = rng.choice("nm")
    begin = letter * rng.choice((1, 2, 63, 64))
    end = rng.choice((letter, letter, "n", "k")) * about(rng, PART)
    if rng.random() < 0.3:
        place = rng.randrange(len(end))
        end = end[:place] + rng.choice("1-.mn:") + end[place + 1:]
    if rng.random() < 0.4:
        begin, end = "p:" + begin, rng.choice(("p:", "p:", "q:", "")) + end
    return ("<%s></%s%s" % (begin, end, rng.choice((">", "", " >")))).encode("utf-8")


def long_message(rng):
    """A message of just under, or just over, the longest: as text, as one value, as many small elements."""
    length = LENGTH + rng.choice((-1, 0, 0, 1, 1, 2, 416))
    form, filler = rng.choice((
        (b"<Response><QueryResponse inResponseTo='7'>%s</QueryResponse></Response>", b"Tower sectors listed. "),
        (b"<Ok inResponseTo='%s'/>", b"9"), (b"<Ok inResponseTo='7'/><!--%s-->", b"abc\r\n"),
        (b"<SessionOpenRequest>%s</SessionOpenRequest>", b"<a b='c'/>"), (b"<SessionOk ID='7'/>%s", b" "),
        (b"<SessionOk ID='&#%s55;'/>", b"0"), (b"<%s/>", b"n"), (b"<Ok %s/>", b"n"), (b"%s", b"<a>"), (b"<a>%s", b"]"),
    ))
    room = length - len(form) + 2
    return (form % (filler * (room // len(filler) + 1))[:room])


LIMIT_CASES = (levels, levels, siblings, attributes, attributes, part_of_tag, part_of_attribute, part_of_end_tag,
               part_of_end_tag)
