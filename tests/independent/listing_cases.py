"""Inputs of the listing program: the ones written by hand with the output due, and random streams."""

from framing import MESSAGE_LIMIT
from reader_cases import random_case
from reader_examples_refused import attributes

SAMPLE = (b'##\n<Ok inResponseTo="7"/>####<Ok>##abc',
          b"item bytes kind refusal place\n1 22 Ok 0 0\n2 4 - 9 4\nend 3\n")
HEADER = b"item bytes kind refusal place\n"
STOPPED = HEADER + b"stop 1\n"
NOTHING = HEADER + b"end 0\n"
SIXTEEN = b"0123456789abcdef"

# Name, input, output. Nothing here was found by running anything.
BY_HAND = (
    ("the sample of document 01", *SAMPLE),
    ("empty input", b"", STOPPED),
    ("no LF, short", b"##", STOPPED),
    ("no LF in 16 bytes", SIXTEEN, STOPPED),
    ("no LF in 17 bytes", SIXTEEN + b"x", STOPPED),
    ("no LF anywhere", b"x" * 1000, STOPPED),
    ("LF as 18th byte", SIXTEEN + b"x\n<Ok inResponseTo='1'/>", STOPPED),
    ("empty boundary", b"\n<Ok inResponseTo='1'/>##", STOPPED),
    ("empty boundary and nothing", b"\n", STOPPED),
    ("two LF", b"\n\n", STOPPED),
    ("boundary alone", b"#\n", NOTHING),
    ("boundary of 16 alone", SIXTEEN + b"\n", NOTHING),
    ("boundary of 1", b"#\n<SessionOk ID='1'/>#x", HEADER + b"1 19 SessionOk 0 0\nend 1\n"),
    ("boundary of 16", SIXTEEN + b"\n<SessionOk ID='1'/>" + SIXTEEN + b"0123456789abcde",
     HEADER + b"1 19 SessionOk 0 0\nend 15\n"),
    ("CR belongs to the boundary", b"#\r\n<Ok>#<a>#\r<SessionOpenRequest/>#\r",
     HEADER + b"1 8 - 9 8\n2 21 SessionOpenRequest 0 0\nend 0\n"),
    ("CR alone", b"\r\n<a/>\r", HEADER + b"1 4 - 13 0\nend 0\n"),
    ("a boundary begun waits", b"###\n<Ok>##", HEADER + b"end 6\n"),
    ("only a begun boundary", b"##\n#", HEADER + b"end 1\n"),
    ("LF in the stream is a byte", b"##\n\n##\n\n##", HEADER + b"1 1 - 9 1\n2 2 - 9 2\nend 0\n"),
    ("empty items give no line", b"##\n##########<SessionOpenRequest/>######",
     HEADER + b"1 21 SessionOpenRequest 0 0\nend 0\n"),
    ("overlapping boundary", b"aa\nbaaa", HEADER + b"1 1 - 9 0\nend 1\n"),
    ("failed match", b"aab\naaab", HEADER + b"1 1 - 9 0\nend 0\n"),
    ("a boundary of markup", b"/>\n<Ok inResponseTo='1'/><a/>", HEADER + b"1 20 - 9 20\n2 2 - 9 2\nend 0\n"),
    ("boundary of odd bytes", b"\0\xff\n<SessionOpenRequest/>\0\xff\0",
     HEADER + b"1 21 SessionOpenRequest 0 0\nend 1\n"),
    ("too long", b"##\n" + b"x" * (MESSAGE_LIMIT + 1) + b"##<Ok inResponseTo='1'/>##",
     HEADER + b"1 - - 8 0\n2 22 Ok 0 0\nend 0\n"),
    ("longest", b"##\n<Ok inResponseTo='1'/>" + b" " * (MESSAGE_LIMIT - 22) + b"##",
     HEADER + b"1 65520 Ok 0 0\nend 0\n"),
    ("longest but one too long", b"##\n<Ok inResponseTo='1'/>" + b" " * (MESSAGE_LIMIT - 21) + b"##",
     HEADER + b"1 - - 8 0\nend 0\n"),
    ("65,936 bytes", b"##\n" + b"<a>" + b"x" * 65933 + b"##<Ok>##", HEADER + b"1 - - 8 0\n2 4 - 9 4\nend 0\n"),
    ("much waiting", b"##\n" + b"x" * 200001, HEADER + b"end 200001\n"),
    ("all seven kinds", b"##\n<SessionOpenRequest/>##<SessionOpenResponse status=''/>##<SessionOk ID=''/>##"
     b"<Ok inResponseTo=''/>##<Advisory><Advisory><AdvisoryType/></Advisory></Advisory>##"
     b"<Request><QueryRequest ID=''/></Request>##"
     b"<Response><QueryResponse/></Response>##",
     HEADER + b"1 21 SessionOpenRequest 0 0\n2 32 SessionOpenResponse 0 0\n3 18 SessionOk 0 0\n4 21 Ok 0 0\n"
     b"5 57 Advisory 0 0\n6 40 Request 0 0\n7 37 Response 0 0\nend 0\n"),
    ("refusals",
     b"##\n<a/>##<!DOCTYPE##" + b"<a>" * 33 + b"##<a" + attributes(17) + b"/>##<" + b"n" * 65 + b"##",
     HEADER + b"1 4 - 13 0\n2 9 - 12 0\n3 99 - 10 96\n4 113 - 11 105\n5 66 - 14 1\nend 0\n"),
    ("eleven lines", b"#\n" + b"<SessionOk ID='1'/>#" * 11,
     HEADER + b"".join(b"%d 19 SessionOk 0 0\n" % i for i in range(1, 12)) + b"end 0\n"),
)


def random_boundary(rng):
    length = rng.choice((1, 2, 2, 3, 8, 15, 16))
    alphabet = rng.choice((b"#", b"#\r", b"<>", b"abcdefgh#~", bytes(byte for byte in range(256) if byte != 10)))
    return bytes(rng.choices(alphabet, k=length))


def random_stream(rng, boundary, items, long_ones=False):
    """Random messages between boundaries; a message may hold a boundary, and some items are empty or begun only."""
    pieces = []
    for _ in range(items):
        maker = random_case(rng.randrange(120))
        while maker.__name__ == "long_message" and not long_ones:
            maker = random_case(rng.randrange(120))
        pieces.append(rng.choice((b"", boundary[:-1])) if rng.random() < 0.1 else maker(rng))
        begun = boundary[:rng.randint(0, len(boundary))]
        pieces.append(boundary * rng.choice((1, 1, 1, 2)) if rng.random() < 0.95 else begun)
    return b"".join(pieces) + (boundary[:rng.randint(0, len(boundary))] if rng.random() < 0.5 else b"<Ok inResp")


def random_input(rng):
    """Boundary, LF and stream; now and then without a boundary that will do."""
    if rng.random() < 0.1:
        return bytes(rng.choices(b"#\n\rab", k=rng.randint(0, 40)))
    boundary = random_boundary(rng)
    return boundary + b"\n" + random_stream(rng, boundary, rng.choice((1, 3, 10, 30)))


def long_input(rng, size):
    """Several MB, with items of every length between them."""
    boundary = b"#-#"
    pieces, length = [boundary, b"\n"], 0
    while length < size:
        if rng.random() < 0.02:
            blanks = rng.choice((65497, 65498, 65499, 65914, 200000))
            pieces.append(b"<Ok inResponseTo='1'/>" + b" " * blanks + boundary)
        else:
            pieces.append(random_stream(rng, boundary, 20))
        length += len(pieces[-1])
    return b"".join(pieces)
