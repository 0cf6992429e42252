#!/usr/bin/env python3
"""responses.py FOLDER: writes the Response messages that bench/read.cc times, and prints the names of the sets.

Their shape is that of source document 000, section 7.3.7: the message of Table 10, its payload the ALIBody of Table 12.
A `short` one answers a Request for a subscriber's line; it leaves out what the tables fill for other calls alone
(wireless, transferred, not answered). A `long` one has every element of both tables, many agencies more and a long
description of the place, and so comes close to the 65,520 bytes that a message may have. The further sets have every
element too, and each has much more of one thing than a message of every day would.

Each file holds a set of messages that differ in their values and in a few elements, a byte 0 between two of them. `lines`
is indented; `tight` holds the same messages without white space between tags, and the further sets have none either. The
same bytes come out every time. Persons, places and telephone numbers are made up.
"""
import os
import sys
import typing

LONGEST_MESSAGE, MOST_LEVELS, MOST_ATTRIBUTES = 65520, 32, 16
NAMESPACES = {
    'xmlns': 'urn:nena-org:dtc:aqstcp',
    'xmlns:aqs': 'urn:nena-org:dtc:aqs',
    'xmlns:ali': 'http://www.nena9-1-1.org/schemas/2003/ali',
    'xmlns:bcqpex': 'urn:bell-canada:ali:aqs:queryproperties:ext',
    'xmlns:bcabex': 'urn:bell-canada:ali:aqs:alibody:ext',
}
FURTHER_ATTRIBUTES = ['lang', 'unit', 'format', 'method', 'origin', 'datum', 'accuracy', 'revision', 'validFrom', 'validUntil',
                      'checkedBy', 'station', 'priority', 'sequence', 'recordedAt', 'reference']
NOTES = ['checked by telephone', 'no. {n} of the card-index', 'taken over on {time}', 'see the map - sheet {n}', 'to be confirmed',
         'from the county\'s file, column {n}', 'was empty until {time}', 'field {n}: free text, re-typed from the old record']
PARTS_OF_PLACES = ['Region', 'County', 'Town', 'Ward', 'Site', 'Building', 'Wing', 'Floor', 'Corridor', 'Suite', 'Room', 'Desk']
BETWEEN_WORDS = [' ', ' &amp; ', ' &lt; ', ' &gt; ', ' &quot;', '&quot; ', '&apos; ']


class Words(typing.NamedTuple):
    streets: list
    towns: list
    persons: list
    stations: list
    kinds_of_agency: list
    ways: list


MIXED = Words(
    ['rue de l\'Église', 'chemin du Lac-Bleu', 'Linden Avenue', 'boulevard Félix-Côté', 'Old Quarry Lane',
     'montée des Érables', 'Mill Pond Road', 'rue Saint-Rémi', 'County Road 12', 'avenue du Pré-Vert', 'Elm Street'],
    ['Ashford', 'Bellmont-sur-le-Lac', 'Carver Falls', 'Dunmore', 'Saint-Éloi'],
    ['Zoé Tremblay', 'A. Okafor', 'Marie-Ève Desrochers-Lapointe', 'Ian Reid', 'Usines Bérubé &amp; Fils', 'Li Wen'],
    ['Sûreté, poste 4', 'Caserne 12', 'Ambulances du Lac', 'N/A', 'County constable, east', 'Brigade des Monts'],
    ['Poison centre', 'Hazardous goods', 'Coast patrol', 'Gas &amp; power', 'Rail yard watch', 'Forest fires',
     'Animal control', 'Crisis line', 'Mountain rescue', 'Harbour master', 'Road service', 'Water works'],
    ['Enter by the yard behind no. {n}, {street}; the front door is bricked up.',
     'Third gate on the left after {street}, {n} metres past the pump house.',
     'Lift B is out of order: take the stairs from {street}.',
     'Ring for the caretaker at {n} {street} &amp; wait inside the glass door.',
     'Hydrant at the corner of {street}; hose couplings of {n} mm are kept in the hall.',
     'Landing place for a helicopter on the roof, reached from {street}, wing {n}.'])
FRENCH = Words(
    ['allée Désirée-Béland', 'montée Théophile-Hébert', 'chaussée Légaré-Côté', 'côte Zoé-Lévêque', 'traversée Émilie-Bélair',
     'cité Éléonore-Gélinas', 'jetée Aimé-Bélisle', 'écluse Rosée-d\'Été', 'forêt Hélène-Séguin'],
    ['Saint-Éloi-lès-Prés', 'Béliveau-Forêt', 'Évêché-Doré', 'Côteau-Mérisé', 'Fossé-aux-Chênes'],
    ['Zoé Bérubé', 'Éléonore Lévêque', 'Désiré Gélinas', 'Marie-Ève Hébert-Côté', 'Théo Légaré', 'Métallurgie Bérubé &amp; Frères'],
    ['Sûreté générale, unité côtière', 'Sécurité forêt-rivière', 'Équipe médicale dédiée', 'Préfecture, accès élargi'],
    ['Dépôt pétrolier', 'Électricité générale', 'Équipe médicale', 'Forêts protégées', 'Sécurité côtière', 'Météo, crues éclairs',
     'Dépannage léger', 'Réseau ferré', 'Qualité, eau traitée'],
    ['Entrée située derrière l\'étable réaménagée, à {n} mètres, côté {street}; façade condamnée.',
     'Première clôture à déplacer après {street}: barrière électrifiée, clé cachée près dépôt {n}.',
     'Élévateur arrêté: accès réservé à l\'équipe médicale, première échelle côté {street}, étage {n}.',
     'Présentez-vous à l\'hôtesse, réception générale, {street}; énoncez «été {n}».',
     'Tuyauterie gelée: réservoir évasé près {street}, débit limité à {n} décilitres.',
     'Hélicoptère: aire aménagée à l\'arrière, {street}; santé fragilisée, très âgé, à déplacer dès {n}.'])


class Draw:
    """Numbers that look drawn at random, the same ones for the same seed."""

    def __init__(self, seed):
        self.state = seed

    def below(self, limit):
        self.state = (self.state * 1664525 + 1013904223) % 2**32
        return (self.state >> 8) % limit

    def of(self, choices):
        return choices[self.below(len(choices))]

    def telephone(self):
        return f'418555{self.below(10000):04d}'

    def time(self):
        return f'2026-11-14T{self.below(24):02d}:{self.below(60):02d}:{self.below(60):02d}.000Z'


# ---- the message as a tree: an element is its name, its attributes and its content, in which a string stands as it is ----

def element(name, /, *content, **attributes):
    return name, attributes, content


def aqs(name, /, *content, **attributes):
    return element('aqs:' + name, *content, **attributes)


def ali(name, /, *content, **attributes):
    return element('ali:' + name, *content, **attributes)


def bcabex(name, /, *content):
    return element('bcabex:' + name, *content)


def way(draw, words):
    return draw.of(words.ways).format(n=1 + draw.below(1200), street=draw.of(words.streets))


def name_of_agency(draw, words):
    return f'{draw.of(words.kinds_of_agency)}, {draw.of(words.streets)}'


def agency(draw, words):
    return ali('Agency', ali('Name', name_of_agency(draw, words)), ali('TN', draw.telephone()))


def call_info(draw):
    return ali('CallInfo', ali('CallbackNum', draw.telephone()), ali('CallingPartyNum', draw.telephone()))


def street_address(draw, recipe):
    fields = [ali('HouseNum', str(1 + draw.below(12000)))]
    if recipe.full or draw.below(2) == 0:
        fields.append(ali('HouseNumSuffix', '-1/2'))
    sentences = recipe.sentences if recipe.full else 1 + draw.below(2)
    fields += [ali('StreetSuffix', draw.of(['ST', 'AV', 'BLVD'])), ali('MSAGCommunity', draw.of(recipe.words.towns).upper()),
               ali('StateProvince', 'QC'), ali('PostalZipCode', f'G{draw.below(10)}X{draw.below(10)}Z{draw.below(10)}'),
               ali('LocationDescription', ' '.join(way(draw, recipe.words) for _ in range(sentences)))]
    return ali('StreetAddress', *fields)


def geo_location(draw):
    return ali('GeoLocation', ali('Latitude', f'46.{draw.below(100000):05d}'), ali('Longitude', f'-71.{draw.below(100000):05d}'),
               ali('Uncertainty', str(5 + draw.below(300))), ali('Confidence', '90'), ali('DateStamp', draw.time()),
               ali('LocationDescription', 'LAT: 46 49 50.052N LONG: 71 11 26.736W CONF:90'))


def agencies(draw, recipe):
    parts = [ali(what, ali('Name', draw.of(recipe.words.stations)), ali('TN', draw.telephone())) for what in ('Police', 'Fire', 'EMS')]
    others = recipe.agencies if recipe.full else draw.below(3)
    if others > 0:
        parts.append(ali('OtherAgencies', *(agency(draw, recipe.words) for _ in range(others))))
    return ali('Agencies', *parts, ali('ESN', f'{draw.below(100000):05d}'))


def provider(draw, what):
    return ali(what + 'Provider', ali(what + 'ProviderID', draw.of(['LAC4', 'MONT', 'TVX'])), ali('TN', draw.telephone()),
               ali('Name', draw.of(['TÉLÉPHONE DU LAC', 'MOUNTAIN VOICE LTD', 'TVX'])))


def source_info(draw):
    return ali('SourceInfo', provider(draw, 'Data'), provider(draw, 'Access'), ali('ALIUpdateGMT', draw.time()),
               ali('ALIRetrievalGMT', draw.time()))


def network_info(draw):
    return ali('NetworkInfo', ali('PSAPID', f'{draw.below(10000):04d}'), ali('CLLI', str(draw.below(100))))


def further_location(draw, recipe):
    fields = [bcabex('StreetName', draw.of(recipe.words.streets)), bcabex('PostalCommunity', draw.of(recipe.words.towns)),
              bcabex('MSAGCommunityCode', f'AB{draw.below(10)}')]
    if recipe.full or draw.below(2) == 0:
        fields.append(bcabex('PostDirectional', draw.of(['N', 'NO', 'S'])))
    if not recipe.full:
        return bcabex('LocationInfo', bcabex('StreetAddress', *fields))
    fields += [bcabex('LocationType', 'FLOOR'), bcabex('LocationNumber', str(draw.below(40))), bcabex('ErrorFlag', 'N')]
    result = [bcabex('ResultCode', '0'), bcabex('ResultMessage', 'POSITION FOUND'), bcabex('ResultDateTime', draw.time())]
    return bcabex('LocationInfo', bcabex('StreetAddress', *fields), bcabex('GeoLocation', *result))


def further_call(draw, recipe):
    fields = [bcabex('CustomerName', draw.of(recipe.words.persons)),
              bcabex('ClassOfService', 'WRL' if recipe.full else draw.of(['RES', 'BUS'])),
              bcabex('PSAPAnswerDateTime', draw.time())]
    if recipe.full:
        fields += [bcabex('NonAnsweredCallDuration', 'P0Y0M0DT0H0M4.500S'), bcabex('TransferringPSAPName', draw.of(recipe.words.towns)),
                   bcabex('TransferringPSAPConferenceDuration', 'P0Y0M0DT0H1M12.500S')]
    return bcabex('CallInfo', *fields)


def body(draw, recipe):
    location = [street_address(draw, recipe)] + ([geo_location(draw)] if recipe.full else [])
    extension = ali('Extension', bcabex('BellAliBodyExt', further_location(draw, recipe), further_call(draw, recipe)),
                    name='Bell ALI Body Extension', source='urn:bell-canada:ali:aqs:alibody:ext', version='1.4')
    return ali('ALIBody', call_info(draw), ali('LocationInfo', *location), agencies(draw, recipe), source_info(draw),
               network_info(draw), extension, schemaVersion='1.4')


def response(draw, recipe):
    status = [aqs('StatusCode', 'urn:nena-org:dtc:aqs:status:' + ('OkMore' if recipe.full else 'Ok'))]
    key = [aqs('FirstPart', draw.telephone())]
    if recipe.full:
        status.append(aqs('StatusMessage', f'Position taken {2 + draw.below(30)} s ago'))
        key.append(aqs('SecondPart', draw.telephone()))
    call_id = element('bcqpex:CallId', f'024182345432{draw.below(100000000):08d}')
    properties = [aqs('TrunkID', str(1 + draw.below(40))), aqs('CallTakerPosition', str(1 + draw.below(200))),
                  aqs('Extension', element('bcqpex:BellQueryPropertiesExt', call_id))]
    answer = aqs('QueryResponse', aqs('Status', *status), aqs('QueryKey', aqs('NumericKey', *key)),
                 aqs('QueryProperties', *properties), aqs('QueryResultData', body(draw, recipe)),
                 ID=str(draw.below(90000)), inResponseTo=str(draw.below(90000)))
    return element('Response', answer, **NAMESPACES, timestamp=draw.time())


# ---- what the further sets have more of: a dress gives what stands in place of an element that stands at a level ----

def as_it_is(_draw, node, _level):
    return [node]


def further_attributes(draw, most, value):
    first, count = draw.below(len(FURTHER_ATTRIBUTES)), draw.below(1 + most)
    return {name: value(draw) for name in (FURTHER_ATTRIBUTES[first:] + FURTHER_ATTRIBUTES[:first])[:count]}


def ordinary_value(draw):
    return draw.of([str(draw.below(1000)), draw.telephone(), draw.time(), draw.of(MIXED.towns), draw.of(MIXED.streets)])


def with_attributes(draw, node, _level):
    """As many as an element may have, or fewer."""
    name, attributes, content = node
    further = further_attributes(draw, MOST_ATTRIBUTES - len(attributes), ordinary_value)
    return [(name, {**attributes, **further}, content)]


def with_comment(draw, node, _level):
    """Before it or behind it; one element in sixteen has none."""
    comment = '<!-- ' + draw.of(NOTES).format(n=1 + draw.below(99), time=draw.time()) + ' -->'
    place = draw.below(16)
    if place == 0:
        return [node]
    return [comment, node] if place < 8 else [node, comment]


def with_references(draw, node, _level):
    """In its text, and in the values of up to two attributes more."""
    name, attributes, content = node
    further = further_attributes(draw, 2, lambda draw: referring(draw, name_of_agency(draw, FRENCH)))
    return [(name, {**attributes, **further}, [referring(draw, part) if isinstance(part, str) else part for part in content])]


def referring(draw, text):
    return ''.join(as_reference(draw, letter) for letter in text)


def as_reference(draw, letter):
    if letter == ' ':
        return draw.of(BETWEEN_WORDS)
    if letter == "'":
        return '&apos;'
    return letter if letter.isascii() else draw.of(['&#%d;', '&#x%X;']) % ord(letter)


def in_a_tower(draw, node, level):
    """An agency with so many elements around it that its own stand at the last level."""
    if node[0] == 'ali:Agency':
        for _ in range(MOST_LEVELS - level - 1):
            node = ali(draw.of(PARTS_OF_PLACES), node)
    return [node]


def dressed(draw, node, dress, level=1):
    """What stands in place of a part of the tree: of an element what is inside is dressed first."""
    if isinstance(node, str):
        return [node]
    name, attributes, content = node
    inside = [part for child in content for part in dressed(draw, child, dress, level + 1)]
    return dress(draw, (name, attributes, inside), level)


# ---- its text ----

def text_of(node, lines, level=1):
    indent, line_feed = ('  ' * (level - 1), '\n') if lines else ('', '')
    if isinstance(node, str):
        return f'{indent}{node}{line_feed}'
    name, attributes, content = node
    assert level <= MOST_LEVELS and len(attributes) <= MOST_ATTRIBUTES
    opening = '<' + ' '.join([name, *(f'{key}="{value}"' for key, value in attributes.items())]) + '>'
    if len(content) == 1 and isinstance(content[0], str):
        return f'{indent}{opening}{content[0]}</{name}>{line_feed}'
    inside = ''.join(text_of(child, lines, level + 1) for child in content)
    return f'{indent}{opening}{line_feed}{inside}{indent}</{name}>{line_feed}'


def message(number, recipe):
    draw = Draw(911 * (number + 1))
    declaration = '<?xml version="1.0" encoding="UTF-8"?>' + ('\n' if recipe.lines else '')
    parts = dressed(draw, response(draw, recipe), recipe.dress)
    written = (declaration + ''.join(text_of(part, recipe.lines) for part in parts)).encode()
    assert len(written) <= LONGEST_MESSAGE
    return written


# ---- the sets ----

class Recipe(typing.NamedTuple):
    """What the messages of a set are made of."""
    count: int
    lines: bool = False
    full: bool = True
    agencies: int = 0   # of a full one, beside the three that each has
    sentences: int = 0  # of a full one
    words: Words = MIXED
    dress: typing.Callable = as_it_is


SETS = {
    'short-lines': Recipe(32, lines=True, full=False),
    'short-tight': Recipe(32, full=False),
    'long-lines': Recipe(8, lines=True, agencies=270, sentences=140),
    'long-tight': Recipe(8, agencies=270, sentences=140),
    'french': Recipe(8, agencies=60, sentences=200, words=FRENCH),
    'attributes': Recipe(8, agencies=25, sentences=10, dress=with_attributes),
    'comments': Recipe(8, agencies=90, sentences=20, dress=with_comment),
    'references': Recipe(8, agencies=30, sentences=50, words=FRENCH, dress=with_references),
    'deep': Recipe(8, agencies=40, sentences=10, dress=in_a_tower),
}


def written_sets(folder):
    """Writes each set to a file of its name, and gives the names in the order of the table."""
    os.makedirs(folder, exist_ok=True)
    for name, recipe in SETS.items():
        with open(os.path.join(folder, name), 'wb') as file:
            file.write(b'\0'.join(message(number, recipe) for number in range(recipe.count)))
    return list(SETS)


if __name__ == '__main__':
    print(*written_sets(sys.argv[1]))
