"""Reads flows as CSV: nfdump's (-o csv) and others whose heading has common names."""
import csv
import re

from readers.common import Refused, Unsaid, address_of, protocol_of
from readers.packets import Packet, WITH_PORTS

COLUMNS = {
    "source": "sa src srcip srcaddr srcipaddr srcaddress sourceip sourceaddress sourceipaddress "
    "source saddr ipsrc sourceipv4address idorigh srcip4",
    "target": "da dst dstip dstaddr dstipaddr dstaddress destip destinationip destinationaddress "
    "destinationipaddress destination destaddr daddr ipdst destinationipv4address idresph dstip4",
    "sport": "sp srcport sport sourceport sourcetransportport idorigp srcpt",
    "dport": "dp dstport dport destport destinationport destinationtransportport idrespp dstpt",
    "protocol": "pr proto protocol ipproto ipprotocol protocolidentifier prot protocolnumber",
}
SEPARATORS = ",;\t"
OPEN = "a double quote is opened and isn't closed in its line"


def name_of(title):
    """The title of a column without case, blanks and signs."""
    return re.sub(r"[^a-z0-9]", "", title.lower())


def columns_of(titles):
    """The place of each field of a packet that a heading names."""
    names = [name_of(title) for title in titles]
    found = {}
    for field, known in COLUMNS.items():
        places = [names.index(name) for name in known.split() if name in names]
        if places:
            found[field] = places[0]
    return found


def separator_of(heading):
    """The sign that parts the columns of a heading with addresses, or nothing."""
    for separator in SEPARATORS:
        if {"source", "target"} <= set(columns_of(heading.split(separator))):
            return separator
    return None


def packets_of(lines):
    """Each flow's line, and its packet or why it is left out."""
    reader = csv.reader(lines, delimiter=separator_of(lines[0]), skipinitialspace=True)
    try:
        heading = next(reader)
        places = columns_of(heading)
        missing = [field for field in COLUMNS if field not in places]
        if missing:
            raise Refused(f"line 1: the heading has no column for: {', '.join(missing)}")
        yield from flows_of(reader, heading, places)
    except csv.Error as why:
        raise Refused(f"line {reader.line_num}: {why}") from why


def flows_of(reader, heading, places):
    """The flows after the heading, which is repeated where files were joined."""
    before = reader.line_num
    for fields in reader:
        first, before = before + 1, reader.line_num
        if [text.strip() for text in fields] == ["Summary"]:
            next(reader, None), next(reader, None)  # nfdump's two lines after it have no flow
            before = reader.line_num
        elif before > first:
            yield from ((line, Unsaid(OPEN)) for line in range(first, before + 1))
        elif fields and fields != heading:
            yield before, spoken(fields, places)


def spoken(fields, places):
    """The packet of a row, or why it is left out."""
    if len(fields) <= max(places.values()):
        return Unsaid("the row has too few columns")
    texts = {field: fields[place].strip() for field, place in places.items()}
    addresses = address_of(texts["source"]), address_of(texts["target"])
    if None in addresses:
        is_other = ":" in texts["source"] and ":" in texts["target"]
        return Unsaid("IPv6" if is_other else "an address isn't IPv4")
    protocol = protocol_of(texts["protocol"])
    if protocol is None:
        return Unsaid(f"unknown protocol {texts['protocol']!r}")
    ports = [texts["sport"], texts["dport"]] if protocol in WITH_PORTS else ["0", "0"]
    if not all(re.fullmatch(r"[0-9]{1,5}", text) and int(text) < 65536 for text in ports):
        return Unsaid("a port is not a number from 0 to 65535")
    return Packet(*addresses, *map(int, ports), protocol)
