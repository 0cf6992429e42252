#!/usr/bin/env python3
"""make_evening.py [FOLDER]: writes an evening on the link from one description of it, the steps below.

    evening.input   the boundary, LF, and the stream that came from the centre: what `./box items` lists
    evening.items   the listing that is due
    evening.txt     the script for `./box replay`: the host's side and, at its place in time, each item of the stream

The listing comes from the lengths, kinds and faults of the messages as they are put together here; nothing is cut or
read to find it. The numbers that the centre names are those that the session gives by document 01 ("Numbers"); the
tests hold them against the session. Without a FOLDER the files go beside this script. The same bytes come out every
time. Persons, places and telephone numbers are made up.

What `./box replay` has to print, evening.out, comes from the independent program:

    python3 tests/independent/replay_script.py < samples/evening.txt > samples/evening.out
"""
import os
import sys
from typing import NamedTuple

BOUNDARY = '##'
WAITING = '<Ok xmlns="urn:n'  # the box hung up in the middle of a message
LENGTH_OF_THE_LONG_MESSAGE = 65936  # 400 more than 16 bits can tell

TCP = 'xmlns="urn:nena-org:dtc:aqstcp"'
AQS = 'xmlns:aqs="urn:nena-org:dtc:aqs"'
STATUS = 'urn:nena-org:dtc:aqstcp:status:'
TYPE = 'urn:nena-org:dtc:aqs:notif:advisory:'
ALERT, UNREADABLE_MESSAGE = TYPE + 'Alert', TYPE + 'appl-x:UnreadableMessage'


class Host(NamedTuple):
    """A line of the script that is no message: a call of the host, or ticks."""
    line: str
    words: str


class Centre(NamedTuple):
    """An item of the stream. {now} in its text is the time of the evening at which it came."""
    text: str
    words: str
    kind: str
    refusal: int = 0
    fault_from_end: int = 0  # how many bytes before the message's end its fault stands; 0: the place is 0


def stamped(text, tenths):
    """The text with the time of the evening, which begins at 19:00:00."""
    hours, minutes, seconds = 19 + tenths // 36000, tenths // 600 % 60, tenths // 10 % 60
    return text.replace('{now}', '2026-10-09T%02d:%02d:%02d.%d00Z' % (hours, minutes, seconds, tenths % 10))


def ticks(many):
    return Host(f'tick {many}', 'time passes')


def opened(status, words):
    return Centre(f'<SessionOpenResponse {TCP} status="{STATUS}{status}" version="1.4"/>', words, 'SessionOpenResponse')


def ok(number, words):
    return Centre(f'<Ok {TCP} timestamp="{{now}}" inResponseTo="{number}"/>', words, 'Ok')


def damaged_ok(number, words):
    """One bit of the last byte fell over: > became <, and after / no message goes on with that."""
    return ok(number, words)._replace(text=ok(number, words).text[:-1] + '<', kind='-', refusal=9, fault_from_end=1)


def advisory(identity, relation, kind_of_advisory, said, words):
    text = (f'<Advisory {TCP} timestamp="{{now}}"><aqs:Advisory {AQS} ID="{identity}"{relation}>'
            f'<aqs:AdvisoryType>{kind_of_advisory}</aqs:AdvisoryType>'
            f'<aqs:AdvisoryData><aqs:Textual>{said}</aqs:Textual></aqs:AdvisoryData></aqs:Advisory></Advisory>')
    return Centre(text, words, 'Advisory')


def objection(identity, number, kind_of_advisory, said, words):
    return advisory(identity, f' inRelationTo="{number}"', kind_of_advisory, said, words)


def rebid(identity, telephone, position, words):
    text = (f'<Request {TCP} timestamp="{{now}}"><aqs:QueryRequest {AQS} version="1.4" ID="{identity}">'
            f'<aqs:QueryType>urn:nena-org:dtc:aqs:request:Rebid</aqs:QueryType>'
            f'<aqs:QueryKey><aqs:NumericKey><aqs:FirstPart>{telephone}</aqs:FirstPart></aqs:NumericKey></aqs:QueryKey>'
            f'<aqs:QueryProperties><aqs:CallTakerPosition>{position}</aqs:CallTakerPosition></aqs:QueryProperties>'
            f'</aqs:QueryRequest></Request>')
    return Centre(text, words, 'Request')


def long_objection(identity, number, length, words):
    """An objection that quotes what the centre's screens show, line by line, and is so long altogether."""
    def quoting(shown):
        return objection(identity, number, UNREADABLE_MESSAGE, shown, words)

    wanted = length - len(stamped(quoting('').text, 0))
    lines = ('desk %02d, line %04d: Old Quarry Ln unit #4, Carver Falls, 555-01%02d: no room on the screen\n'
             % (10 + n % 9, n, n % 100) for n in range(wanted))
    shown = ''
    while len(shown) < wanted:
        shown += next(lines)
    return quoting(shown[:wanted])._replace(kind='-', refusal=8)


def unknown(text, words):
    return Centre(text, words, '-', 13)


NOTHING = Centre('', 'two boundaries, one right after the other: no message between them, and no line', '-')

FIRST_OPENING = [
    Host('tick', 'the box is switched on: connect'),
    Host('connected', 'the link to the centre is there: SessionOpenRequest, number 1'),
    ticks(3),
    opened('Ok', 'the centre agrees: SessionOk, number 2'),
    ticks(2),
    ok(2, 'the centre confirms: the session is up'),
    ticks(94),
]
RECORDS = [
    Host('push 101', 'a home telephone on Linden Ave: Response, number 3'),
    ticks(4),
    ok(3, '101 is heard'),
    ticks(146),
    Host('push 102', 'a mobile call, the address of the tower: Response, number 4'),
    ticks(3),
    ok(4, '102 is heard'),
    ticks(57),
    Host('push 103', 'the refined position of that call: Response, number 5'),
    ticks(5),
    objection('C31', 5, UNREADABLE_MESSAGE, 'RECORD NOT READABLE', '103 was not readable for the centre: it is sent again'),
    ticks(4),
    ok(5, '103 is heard'),
    ticks(131),
    Host('push 104', 'a home telephone on Harbor St: Response, number 6'),
    ticks(6),
    objection('C32', 6, ALERT, 'DESK 31 IS NOT OURS', '104 is objected to'),
    ticks(64),
    Host('advise 105', 'the call of 101 has ended: Advisory, number 7'),
    ticks(3),
    ok(7, '105 is heard'),
    ticks(81),  # 600 since the SessionOk: the next one, number 8
    ticks(2),
    NOTHING,
    ok(8, 'the heartbeat is answered'),
]
CENTRE_SPEAKS = [
    ticks(94),
    rebid(881, '5550142', 17, 'the centre asks where the caller of 103 is now'),
    ticks(22),
    Host('push 106', 'the answer to that: Response, number 9'),
    ticks(4),
    ok(9, '106 is heard'),
    ticks(74),
    advisory('C33', '', ALERT, 'CAMERA ON MILL POND RD OUT OF ORDER', 'a notice of the centre that answers nothing'),
]
LONG_MESSAGE = [
    ticks(100),
    Host('push 107', 'a refined position on Old Quarry Ln: Response, number 10'),
    ticks(7),
    long_objection('C34', 10, LENGTH_OF_THE_LONG_MESSAGE, 'the centre objects, with all that its screens show: too long'),
    ticks(13),  # 20 since 107 was sent: it is sent again
    ticks(3),
    ok(10, '107 is heard'),
]
UNHEARD = [
    ticks(77),
    Host('push 108', 'a home telephone on Second St: Response, number 11'),
    ticks(10),
    damaged_ok(11, 'an Ok that was damaged on the way'),
    Host('advise 109', 'the call of 102 has ended: Advisory, number 12'),
    ticks(10),  # 20 since 108 was sent: it is sent again
    ticks(10),  # 20 since 109 was sent: given up
    ticks(10),  # 20 since 108 was sent again: given up
    ticks(5),
    ok(11, 'the Ok for 108, half a second late'),
    ticks(95),
    Centre(f'<SessionOk {TCP} ID="1"/>', 'what only the provider sends', 'SessionOk'),
    ticks(64),  # 600 since the last SessionOk: the next one, number 13
    ticks(3),
    ok(13, 'the heartbeat is answered'),
]
LINK_LOST = [
    ticks(193),
    Host('push 110', 'a mobile call, the address of the tower: Response, number 14'),
    ticks(12),
    Host('push 111', 'a home telephone on County Road 12: Response, number 15'),
    ticks(3),
    Host('advise 112', 'the call of 111 has ended: Advisory, number 16'),
    ticks(5),  # 20 since 110 was sent: it is sent again
    ticks(4),
    Host('lost', 'the link is gone, with 110, 111 and 112 open'),
    ticks(100),
    Host('push 113', 'a home telephone on Linden Ave: there is no session to take it'),
    ticks(200),  # 300 since the link was lost: connect
]
SECOND_OPENING = [
    Host('connected', 'SessionOpenRequest, number 17'),
    ticks(4),
    opened('ServiceNotReady', 'the centre is not ready: disconnect'),
    ticks(300),
    Host('connected', 'SessionOpenRequest, number 18'),
    ticks(20),  # no answer: Alert, number 19, GoingOutOfService, number 20, disconnect
    ticks(300),
    ticks(6),
    Host('connected', 'SessionOpenRequest, number 21'),
    ticks(3),
    opened('Ok', 'SessionOk, number 22'),
    ticks(2),
    ok(22, 'the session is up'),
    Host('push 110', 'handed over again: Response, number 23'),
    Host('push 113', 'handed over again: Response, number 24'),
    ticks(3),
    ok(24, '113 is heard, though it came second'),
    ticks(1),
    ok(23, '110 is heard'),
    ticks(594),  # 600 since the SessionOk: the next one, number 25
    ticks(2),
    ok(25, 'the heartbeat is answered'),
]
CENTRE_SILENT = [
    ticks(318),
    unknown('<SessionCloseRequest xmlns="urn:nena-org:dtc:aqstcp"/>', 'a farewell that this link does not know'),
    ticks(280),  # 600 since the last SessionOk: the next one, number 26
    ticks(5),
    Host('push 114', 'a refined position on Mill Pond Rd: Response, number 27'),
    ticks(15),  # the heartbeat was open for 20: GoingOutOfService, number 28, disconnect, and 114 is lost
    ticks(300),
]
THIRD_OPENING = [
    Host('connected', 'SessionOpenRequest, number 29'),
    ticks(2),
    ok(27, 'an Ok for what was sent in the session before'),
    ticks(1),
    opened('Ok', 'SessionOk, number 30'),
    ticks(2),
    ok(30, 'the session is up'),
    Host('push 114', 'handed over again: Response, number 31'),
    ticks(3),
    ok(31, '114 is heard'),
    ticks(595),  # 600 since the SessionOk: the next one, number 32
    ticks(2),
    ok(32, 'the heartbeat is answered'),
    ticks(148),
    Host('stop', 'the end of the evening: GoingOutOfService, number 33, disconnect'),
    Host('push 115', 'too late: the session is stopped'),
]
PARTS = [FIRST_OPENING, RECORDS, CENTRE_SPEAKS, LONG_MESSAGE, UNHEARD, LINK_LOST, SECOND_OPENING, CENTRE_SILENT,
         THIRD_OPENING]


def ticks_in(step):
    words = step.line.split() if isinstance(step, Host) else ['']
    return int(words[1:][0] if words[1:] else 1) if words[0] == 'tick' else 0


def timed(parts):
    """The parts with the time at which each item came standing in it."""
    tenths, made = 0, []
    for part in parts:
        made.append([])
        for step in part:
            tenths += ticks_in(step)
            made[-1].append(step if isinstance(step, Host) else step._replace(text=stamped(step.text, tenths)))
    return made


def script_line(step):
    if isinstance(step, Host):
        return step.line
    return f'unreadable {step.refusal}' if step.refusal else f'message {step.text}'


def script(parts):
    blocks = ['\n'.join(script_line(step) for step in part if step != NOTHING) for part in parts]
    return 'interval 600\n\n' + '\n\n'.join(blocks) + '\n'


def stream(items):
    """The whole input of `items`. No message holds the boundary, and no message of the script an LF."""
    cut = ''.join(item.text + BOUNDARY for item in items)
    assert cut.count(BOUNDARY) == len(items), 'a message holds the boundary'
    assert not any('\n' in item.text for item in items if not item.refusal), 'a message of the script holds LF'
    return BOUNDARY + '\n' + cut + WAITING


def listing(items):
    lines = ['item bytes kind refusal place']
    for item in (item for item in items if item.text):
        place = len(item.text) - item.fault_from_end if item.fault_from_end else 0
        length = '-' if item.refusal == 8 else len(item.text)
        lines.append(f'{len(lines)} {length} {item.kind} {item.refusal} {place}')
    return '\n'.join(lines + [f'end {len(WAITING)}', ''])


def main():
    folder = sys.argv[1] if len(sys.argv) > 1 else os.path.dirname(os.path.abspath(__file__))
    parts = timed(PARTS)
    items = [step for part in parts for step in part if isinstance(step, Centre)]
    made = {'evening.input': stream(items), 'evening.items': listing(items), 'evening.txt': script(parts)}
    for name, text in made.items():
        with open(os.path.join(folder, name), 'w', encoding='ascii', newline='\n') as file:
            file.write(text)


if __name__ == '__main__':
    main()
