"""The samples of Table 12 of source document 000 (7.3.7.2), with the answer that document 01 and the rulings call for. The
answers were worked out by hand.

A line is the row's label, the sample as printed from its first tag on, with `{` before the place of refusal, and the
corrected spelling: the path of elements and the text in the last of them. Every sample is a piece of a message, so all
are refused with 9 as printed; the table also prints dots before each, and with them the place is 0. The corrected
spelling stands in a whole Response, whose inside is free.
"""

from paper_000_tables import PUSHED, answered

LOCATION = "LocationInfo StreetAddress"
GEO = "LocationInfo GeoLocation"
OTHER_AGENCY = "Agencies OtherAgencies Agency"

# Rows of the NENA elements.
ALI_ROWS = (
    ("CallbackNum", b"<ali:CallInfo> <ali:CallbackNum>4128341234</ali:CallbackNum>{", "CallInfo CallbackNum",
     b"4128341234"),
    ("CallingPartyNum", b"<ali:CallInfo> <ali:CallingPartyNum>4128341235</ali:CallingPartyNum>{",
     "CallInfo CallingPartyNum", b"4128341235"),
    ("HouseNum", b"<ali:LocationInfo {... > <ali:StreetAddress> <ali:HouseNum>142</ali:HouseNum>",
     LOCATION + " HouseNum", b"142"),
    ("HouseNumSuffix",
     b"<ali:LocationInfo {... > <ali:StreetAddress> <ali:HouseNumSuffix>-1/2</ali:HouseNumSuffix>",
     LOCATION + " HouseNumSuffix", b"-1/2"),
    ("StreetSuffix", b"<ali:LocationInfo {... > <ali:StreetAddress> <ali:StreetSuffix>ST</ali:StreetSuffix>",
     LOCATION + " StreetSuffix", b"ST"),
    ("MSAGCommunity",
     b"<ali:LocationInfo {... > <ali:StreetAddress> <ali:MSAGCommunity>MONTREAL</ali:MSAGCommunity>",
     LOCATION + " MSAGCommunity", b"MONTREAL"),
    ("StateProvince", b"<ali:LocationInfo {... > <ali:StreetAddress> <ali:StateProvince>QC</ali:StateProvince>",
     LOCATION + " StateProvince", b"QC"),
    ("PostalZipCode", b"<ali:LocationInfo {... > <ali:StreetAddress> <ali:PostalZipCode>G6Z1N9</ali:PostalZipCode>",
     LOCATION + " PostalZipCode", b"G6Z1N9"),
    ("LocationDescription-street", b"<ali:LocationInfo {... > <ali:StreetAddress> "
     b"<ali:LocationDescription>UP THE STAIRWAY AND TURN LEFT</ali:LocationDescription>",
     LOCATION + " LocationDescription", b"UP THE STAIRWAY AND TURN LEFT"),
    ("Latitude", b"<ali:LocationInfo {... > <ali:GeoLocation> <ali:Latitude>123.23456</ali:Latitude>",
     GEO + " Latitude", b"123.23456"),
    ("Longitude", b"<ali:LocationInfo {... > <ali:GeoLocation> <ali:Longitude>-89.12345</ali:Longitude>",
     GEO + " Longitude", b"-89.12345"),
    ("Uncertainty", b"<ali:LocationInfo {... > <ali:GeoLocation> <ali:Uncertainty>18</ali:Uncertainty>",
     GEO + " Uncertainty", b"18"),
    ("Confidence", b"<ali:LocationInfo {... > <ali:GeoLocation> <ali:Confidence>90</ali:Confidence>",
     GEO + " Confidence", b"90"),
    ("DateStamp", b"<ali:LocationInfo {... > <ali:GeoLocation> "
     b"<ali>DateStamp>2001-12-17T09:30:47.000Z</ali>DateStamp>", GEO + " DateStamp", b"2001-12-17T09:30:47.000Z"),
    ("LocationDescription-geo", b"<ali:LocationInfo {... > <ali:GeoLocation> <ali:LocationDescription>"
     b"LAT: 46 49 50.041N LONG: 71 11 26.753W CONF:90 UNC:100</ali:LocationDescription>",
     GEO + " LocationDescription", b"LAT: 46 49 50.041N LONG: 71 11 26.753W CONF:90 UNC:100"),
    ("Name-police", b"<ali:Agencies> <ali:Police> <ali:Name>RCMP</ali:Name>{", "Agencies Police Name", b"RCMP"),
    ("TN-police", b"<ali:Agencies> <ali:Police> <ali:TN>4185552234</ali:TN>{", "Agencies Police TN", b"4185552234"),
    ("Name-fire", b"<ali:Agencies> <ali:Fire> <ali:Name>Crescent</ali:Name>{", "Agencies Fire Name", b"Crescent"),
    ("TN-fire", b"<ali:Agencies> <ali:Fire> <ali:TN>4185551134</ali:TN>{", "Agencies Fire TN", b"4185551134"),
    ("Name-EMS", b"<ali:Agencies> <ali:EMS> <ali:Name>Maguire</ali:Name>{", "Agencies EMS Name", b"Maguire"),
    ("TN-EMS", b"<ali:Agencies> <ali:EMS> <ali:TN>4185551224</ali:TN>{", "Agencies EMS TN", b"4185551224"),
    ("Name-agency-4", b"<ali:Agencies> <ali:OtherAgencies> <ali:Agency> <ali:Name>poison</ali:Name>{",
     OTHER_AGENCY + " Name", b"poison"),
    ("TN-agency-4", b"<ali:Agencies> <ali:OtherAgencies> <ali:Agency> <ali:TN>4185551233</ali:TN>{",
     OTHER_AGENCY + " TN", b"4185551233"),
    ("Name-agency-5", b"<ali:Agencies> <ali:OtherAgencies> <ali:Agency> <ali:Name>azmat</ali:Name>{",
     OTHER_AGENCY + " Name", b"azmat"),
    ("TN-agency-5", b"<ali:Agencies> <ali:OtherAgencies> <ali:Agency> <ali:TN>4185554234</ali:TN>{",
     OTHER_AGENCY + " TN", b"4185554234"),
    ("Name-agency-6", b"<ali:Agencies> <ali:OtherAgencies> <ali:Agency> <ali:Name>N/A</ali:Name>{",
     OTHER_AGENCY + " Name", b"N/A"),
    ("TN-agency-6", b"<ali:Agencies> <ali:OtherAgencies> <ali:Agency> <ali:TN>0000000000</ali:TN>{",
     OTHER_AGENCY + " TN", b"0000000000"),
    ("ESN", b"<ali:Agencies> <ali:ESN>12345</ali:ESN>{", "Agencies ESN", b"12345"),
    ("DataProviderID", b"<ali:SourceInfo> <ali:DataProvider> <ali:DataProviderID>BELL</ali:DataProviderID>{",
     "SourceInfo DataProvider DataProviderID", b"BELL"),
    ("TN-data-provider", b"<ali:SourceInfo> <ali:DataProvider> <ali:TN>1234567890</ali:TN>{",
     "SourceInfo DataProvider TN", b"1234567890"),
    ("Name-data-provider", b"<ali:SourceInfo> <ali:DataProvider> <ali:Name>BELL CANADA</ali:Name>{",
     "SourceInfo DataProvider Name", b"BELL CANADA"),
    ("AccessProviderID", b"<ali:SourceInfo> <ali:AccessProvider> <ali:AccessProviderID>12345</ali:AccessProviderID>{",
     "SourceInfo AccessProvider AccessProviderID", b"12345"),
    ("TN-access-provider", b"<ali:SourceInfo> <ali:AccessProvider> <ali:TN>1234567890</ali:TN>{",
     "SourceInfo AccessProvider TN", b"1234567890"),
    ("Name-access-provider", b"<ali:SourceInfo> <ali:AccessProvider> <ali:Name>BELL CANADA</ali:Name>{",
     "SourceInfo AccessProvider Name", b"BELL CANADA"),
    ("ALIUpdateGMT", b"<ali:SourceInfo> <ali:ALIUpdateGMT>2001-12-17T09:30:47.000Z</ali:ALIUpdateGMT>{",
     "SourceInfo ALIUpdateGMT", b"2001-12-17T09:30:47.000Z"),
    ("ALIRetrievalGMT", b"<ali:SourceInfo> <ali:ALIRetrievalGMT>2001-12-17T09:30:47.000Z</ali:ALIRetrievalGMT>{",
     "SourceInfo ALIRetrievalGMT", b"2001-12-17T09:30:47.000Z"),
    ("PSAPID", b"<ali:NetworkInfo> <ali:PSAPID>0012</ali:PSAPID>{", "NetworkInfo PSAPID", b"0012"),
    ("CLLI", b"<ali:NetworkInfo> <ali:CLLI>34</ali:CLLI>{", "NetworkInfo CLLI", b"34"),
)

# Rows of Bell's own elements, which stand in the Extension.
BELL_ROWS = (
    ("BellStreetAddress", b"<bcabex:{ BellAliBodyExt> <bcabex: LocationInfo> <bcabex: StreetAddress>", LOCATION, b""),
    ("StreetName", b"<bcabex:{ LocationInfo> <bcabex: StreetAddress> <bcabex: StreetName>Street Name"
     b"</bcabex: StreetName>", LOCATION + " StreetName", b"Street Name"),
    ("PostDirectional", b"<bcabex:{ LocationInfo> <bcabex: StreetAddress> <bcabex: PostDirectional>NO"
     b"</bcabex: PostDirectional>", LOCATION + " PostDirectional", b"NO"),
    ("PostalCommunity", b"<bcabex:LocationInfo> <bcabex:StreetAddress> <bcabex:PostalCommunity>Postal Community"
     b"</bcabex:PostalCommunity>{", LOCATION + " PostalCommunity", b"Postal Community"),
    ("MSAGCommunityCode", b"<bcabex:LocationInfo> <bcabex:StreetAddress> <bcabex:MSAGCommunityCode>AB1"
     b"</bcabex:MSAGCommunityCode>{", LOCATION + " MSAGCommunityCode", b"AB1"),
    ("LocationType", b"<bcabex:LocationInfo> <bcabex:StreetAddress> <bcabex:LocationType>FLOOR</bcabex:LocationType>{",
     LOCATION + " LocationType", b"FLOOR"),
    ("LocationNumber", b"<bcabex:LocationInfo> <bcabex:StreetAddress> <bcabex:LocationNumber>23"
     b"</bcabex:LocationNumber>{", LOCATION + " LocationNumber", b"23"),
    ("ErrorFlag", b"<bcabex:LocationInfo> <bcabex:StreetAddress> <bcabex>ErrorFlag>Y</bcabex>ErrorFlag>{",
     LOCATION + " ErrorFlag", b"Y"),
    ("ResultCode", b"<bcabex:LocationInfo> <bcabex:GeoLocation> <bcabex:ResultCode>4</bcabex:ResultCode>{",
     GEO + " ResultCode", b"4"),
    ("ResultMessage", b"<bcabex:LocationInfo> <bcabex:GeoLocation> <bcabex:ResultMessage>UNKNOWN SUBSCRIBER"
     b"</bcabex:ResultMessage>{", GEO + " ResultMessage", b"UNKNOWN SUBSCRIBER"),
    ("ResultDateTime", b"<bcabex:LocationInfo> <bcabex:GeoLocation> <bcabex:ResultDateTime>2012-12-17T09:30:47.000Z "
     b"</bcabex:ResultDateTime>{", GEO + " ResultDateTime", b"2012-12-17T09:30:47.000Z "),
    ("CustomerName", b"<bcabex:BellAliBodyExt> <bcabex:CallInfo> <bcabex:CustomerName>Customer Name"
     b"</bcabex:CustomerName>{", "CallInfo CustomerName", b"Customer Name"),
    ("ClassOfService", b"<bcabex:BellAliBodyExt> <bcabex:CallInfo> <bcabex:ClassOfService>RES"
     b"</bcabex:ClassOfService>{", "CallInfo ClassOfService", b"RES"),
    ("PSAPAnswerDateTime", b"<bcabex:BellAliBodyExt> <bcabex:CallInfo> <bcabex:PSAPAnswerDateTime>"
     b"2012-06-03T21:16:03.000Z </bcabex:{ PSAPAnswerDateTime >", "CallInfo PSAPAnswerDateTime",
     b"2012-06-03T21:16:03.000Z "),
    ("NonAnsweredCallDuration", b"<bcabex:BellAliBodyExt> <bcabex:CallInfo> <bcabex:NonAnsweredCallDuration>"
     b"P0Y0M0DT0H0M23.000S </bcabex:{ NonAnsweredCallDuration>", "CallInfo NonAnsweredCallDuration",
     b"P0Y0M0DT0H0M23.000S "),
    ("TransferringPSAPName", b"<bcabex:BellAliBodyExt> <bcabex:CallInfo> <bcabex:{ TransferringPSAPName>"
     b"TransferringPSAP </bcabex:TransferringPSAPName>", "CallInfo TransferringPSAPName", b"TransferringPSAP "),
    ("TransferringPSAPConferenceDuration", b"<bcabex:BellAliBodyExt> <bcabex:CallInfo> "
     b"<bcabex:TransferringPSAPConferenceDuration>P0Y0M0DT1H2M31.500S </bcabex:{ TransferringPSAPConferenceDuration>",
     "CallInfo TransferringPSAPConferenceDuration", b"P0Y0M0DT1H2M31.500S "),
)

EXTENSION = b'<ali:Extension name="Bell ALI Body Extension" source="urn:bell-canada:ali:aqs:alibody:ext" version="1.4">'


def nested(prefix, path, inside):
    for name in reversed(path.split()):
        inside = b"<%s:%s>%s</%s:%s>" % (prefix, name.encode(), inside, prefix, name.encode())
    return inside


def in_body(inside):
    return answered(b'<aqs:QueryResultData><ali:ALIBody schemaVersion="1.4">%s</ali:ALIBody></aqs:QueryResultData>'
                    % inside)


def in_extension(inside):
    return in_body(EXTENSION + nested(b"bcabex", "BellAliBodyExt", inside) + b"</ali:Extension>")


# Rows whose sample is a tag with attributes, and misprints that stay well formed once the tags around them are closed.
ROWS_OF_TAGS = (
    ("schemaVersion-printed", b'<ali:ALIBody {... schemaVersion="1.4" ... >', 9),
    ("schemaVersion-right", in_body(b""), PUSHED),
    ("Extension-printed", b'<ali:Extension name="Bell ALI Body Extension" source="urn:bell-canada:ali:aq:alibody:ext" '
     b'version="1.3">{', 9),
    ("Extension-right", in_body(EXTENSION + b"</ali:Extension>"), PUSHED),
    ("BellAliBodyExt-printed", b'<ali:Extension name="Bell ALI Body Extension" source="urn:bell- '
     b'canada:ali:aqs:alibody:ext" version="1.4"> <bcabex:{ BellAliBodyExt>', 9),
    ("BellAliBodyExt-right", in_extension(b""), PUSHED),
    ("DateStamp-misprint", in_body(nested(b"ali", GEO, b"<ali>DateStamp>2001-12-17T09:30:47.000Z</ali>DateStamp>")),
     PUSHED),
    ("ErrorFlag-misprint", in_extension(nested(b"bcabex", LOCATION, b"<bcabex>ErrorFlag>Y</bcabex>ErrorFlag>")), PUSHED),
)


def rows_of_table_12():
    for label, printed, path, text in ALI_ROWS:
        yield label + "-printed", printed, 9
        yield label + "-right", in_body(nested(b"ali", path, text)), PUSHED
    for label, printed, path, text in BELL_ROWS:
        yield label + "-printed", printed, 9
        yield label + "-right", in_extension(nested(b"bcabex", path, text)), PUSHED
    yield from ROWS_OF_TAGS


def table_12():
    for label, marked, verdict in rows_of_table_12():
        yield "12-" + label, marked, verdict
        if verdict == 9:
            yield "12-%s-after-dots" % label, b"{... " + marked.replace(b"{", b""), 9


TABLE_12 = tuple(table_12())
