#!/usr/bin/env python3
"""make.py [FOLDER]: writes the sample inputs of `./box items` and `./box line`, and what both have to print for each.

The expected lines come from how the records are put together here: their lengths, and the kind or the refusal that each
is built to have. Nothing is cut or read to find them. Without a FOLDER the files go beside this script. The same bytes
come out every time. Persons, places and telephone numbers are made up.
"""
import os
import sys
from typing import NamedTuple

BOUNDARY = b'##'
LENGTH_OF_LAST_SPRING = 65936  # 400 more than 16 bits can tell

STREETS = ['Linden Ave', 'Mill Pond Rd', 'Harbor St', 'County Road 12', 'Old Quarry Ln', 'Second St']
TOWNS = ['Ashford', 'Bellmont', 'Carver Falls', 'Dunmore']
NOTES = ['Gate code held by the alarm company.', 'Second entrance from the yard &amp; loading dock.',
         'Occupant uses a wheelchair, unit #2.', 'Dog on the premises.', 'Hydrant across the street.']


class Record(NamedTuple):
    """The bytes of an item, and what its line says behind its number and its bytes."""

    text: bytes
    kind: str = '-'
    refusal: int = 0
    place: int = 0

    def line(self, number):
        length = '-' if self.refusal == 8 else len(self.text)
        return f'{number} {length} {self.kind} {self.refusal} {self.place}'


def location(n):
    street, town = STREETS[n % len(STREETS)], TOWNS[n % len(TOWNS)]
    return (f'      <Location seq="{n}">\n'
            f'        <HouseNum>{100 + 37 * n % 8900}</HouseNum><Street>{street}</Street>\n'
            f'        <MSAGCommunity>{town}</MSAGCommunity><State>XX</State>\n'
            f'        <Telephone>555-01{n % 100:02d}</Telephone><ESN>{200 + n % 40}</ESN>\n'
            f'        <Comment>{NOTES[n % len(NOTES)]}</Comment>\n'
            f'      </Location>\n')


def response(number, locations, filler=''):
    return (f'<Response>\n  <QueryResponse inResponseTo="{number}">\n    <ALI xmlns="urn:example:ali">\n'
            + ''.join(location(n) for n in range(locations))
            + filler
            + '    </ALI>\n  </QueryResponse>\n</Response>').encode()


def response_of_length(number, length):
    """As many locations as fit, and one remark that makes up the rest."""
    opening, closing = '      <Remark>', '</Remark>\n'
    locations = 1
    while len(response(number, locations + 1, opening + closing)) <= length:
        locations += 1
    missing = length - len(response(number, locations, opening + closing))
    sentence = 'Tower sectors listed by the carrier, checked. '
    remark = (sentence * (missing // len(sentence) + 1))[:missing]
    return response(number, locations, opening + remark + closing)


def unclosed(text):
    """Ends too soon: refused with 9, at its length."""
    return Record(text, refusal=9, place=len(text))


def samples():
    """name, records, bytes waiting"""
    yield 'short', [
        Record(b'<Ok inResponseTo="7"/>', 'Ok'),
        Record(b''),
        Record(b'<SessionOk ID="8"/>', 'SessionOk'),
        Record(b'<a note="unit #4"/>', refusal=13),
        unclosed(b'<Request><QueryRequest ID="9"/>'),
        Record(b'<Request><QueryRequest ID="9"/></Request>', 'Request'),
    ], b'<Ok inResp'
    yield 'last-spring', [
        Record(response(41, 1), 'Response'),
        Record(response_of_length(42, LENGTH_OF_LAST_SPRING), refusal=8),
        Record(response(43, 2), 'Response'),
    ], b''


def expected(records, waiting):
    listed = [record for record in records if record.text]
    lines = ['item bytes kind refusal place', *(record.line(n) for n, record in enumerate(listed, 1))]
    return '\n'.join(lines + [f'end {len(waiting)}', ''])


def main():
    folder = sys.argv[1] if len(sys.argv) > 1 else os.path.dirname(os.path.abspath(__file__))
    for name, records, waiting in samples():
        stream = b''.join(record.text + BOUNDARY for record in records) + waiting
        assert stream.count(BOUNDARY) == len(records), 'a record holds the boundary'
        with open(os.path.join(folder, name + '.input'), 'wb') as f:
            f.write(BOUNDARY + b'\n' + stream)
        with open(os.path.join(folder, name + '.items'), 'w', newline='\n') as f:
            f.write(expected(records, waiting))


main()
