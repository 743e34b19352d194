"""Explains the codes of networks, and TOML's own lines."""
import re
import tomllib
from collections import Counter
from difflib import get_close_matches

from . import fields
from .asked import MOST_ROOM
from .cautions import network_cautions
from .records import header_line, key_line, lines_of, quoted
from .row_mistakes import HEADINGS, is_utf16

import refusals

LINK_ROWS = 100
NETWORK = {
    1: "the file is not a TOML document in UTF-8",
    2: "a key that must be there is absent",
    3: "a value isn't of its key's type",
    4: "a number or a name is outside what its key takes, or there is no switch",
    5: "an end of a link is not a switch's name",
    6: "an earlier switch has the name",
    7: "a port occurs twice: each is at one place in the whole file",
    8: "both ends of a link are one switch",
    9: "an earlier link has these ends, in either order",
    10: "there are more than 64 switches or more than 256 links",
}
# What is added to a line of Python's reader of TOML.
TOML_HINTS = {
    "Illegal character '\\n'": ": a text in quotes ends in its line",
    "Cannot overwrite a value": ": the key occurs twice",
    "Invalid value": ": texts are in double quotes, and each key has a value",
    "Expected ']]' at the end of an array declaration": ", which begins with two brackets",
}
TYPES = {
    bool: "a boolean", int: "an integer", float: "a float", str: "a text", list: "an array",
    dict: "a table",
}


def explain_network(asked, name, code, row):
    """What a network has for a code and its row."""
    lines = lines_of(asked.path(name))
    if code == 1:
        return no_document(asked.path(name), name, lines)
    net = asked.network()
    if row == 0:
        return document_fault(net, name, lines, code)
    key, number = ("link", row - LINK_ROWS) if row > LINK_ROWS else ("switch", row)
    start = header_line(lines, key, number)
    table = net[key][number - 1]
    what = f"{key} {number} of {name}"
    what += f", line {start}: {lines[start - 1].strip()}" if start else ""
    explainer = link_fault if key == "link" else switch_fault
    return [what, *explainer(net, table, code, number, Place(name, lines, start))]


class Place:
    """Where a switch or a link is in the network's file."""

    def __init__(self, name, lines, start):
        self.name, self.lines, self.start = name, lines, start

    def of(self, key):
        """The line and the text of a key; only the key where it has no line of its own."""
        at = self.start and key_line(self.lines, key, self.start)
        return f"{self.name}, line {at}: {self.lines[at - 1].strip()[:200]}" if at else key


def no_document(path, name, lines):
    """TOML's own line."""
    if is_utf16(path):
        yield f"{name} is in UTF-16: save it as UTF-8"
        return
    try:
        path.read_bytes().decode()
    except UnicodeDecodeError as error:
        line = path.read_bytes()[: error.start].count(b"\n") + 1
        yield f"{name}, line {line}: the byte {path.read_bytes()[error.start]:#x} is not UTF-8"
        return
    heading = lines[0].strip() if lines else ""
    if heading in HEADINGS:
        yield f"{name}, line 1: {heading}"
        yield "this is not a network: --net takes the name of a TOML file"
        return
    try:
        tomllib.loads("".join(lines))
    except ValueError as error:
        yield from toml_fault(str(error), name, lines)
        return
    yield "Python's reader takes it, but for TOML here integers have at most 64 bits"
    for at, line in enumerate(lines, 1):
        if re.search(r"\d[\d_]{18}", line):
            yield f"{name}, line {at}: {line.strip()[:200]}"


def toml_fault(error, name, lines):
    """What Python's reader of TOML says, with the line's text."""
    place = re.search(r" \(at line (\d+), column (\d+)\)$", error)
    if "integer string conversion" in error:
        error = "integers have at most 64 bits (at end of document)"
    if place is None:
        yield f"TOML: {error.removesuffix(' (at end of document)')}, at the end of {name}"
        return
    at = int(place[1])
    yield f"{name}, line {at}, column {place[2]}: {quoted(lines[at - 1].rstrip())[1:-1][:200]}"
    said = error[: place.start()]
    yield f"TOML: {said}" + TOML_HINTS.get(said, "")


def type_name(value):
    """What a value is, in TOML's words."""
    return TYPES.get(type(value), "a date or a time")


def number_said(value, least, most):
    """What is wrong with a number, or an empty text."""
    if type(value) is not int:
        return f"it is {type_name(value)}, and a whole number from {least} to {most} is needed"
    return "" if least <= value <= most else f"{value} isn't from {least} to {most}"


def document_fault(net, name, lines, code):
    """Of the document's own keys."""
    place = Place(name, lines, 1)
    if code in (3, 4):
        for key, (least, most) in refusals.KEYS.items():
            fault = number_said(net[key], least, most) if key in net else ""
            if fault:
                yield f"{place.of(key)}: {fault}"
                return
    if code == 2:
        yield f"the key switch is absent: a network has a table [[switch]] for each switch"
    elif code == 4:
        yield "the array switch is empty"
    elif code == 10:
        yield f"in {name}: switches {len(net['switch'])}, links {len(net.get('link', []))}"
    for key in ("switch", "link"):
        if code == 3 and not isinstance(net.get(key, []), list):
            yield f"{key} is {type_name(net[key])}: write [[{key}]], in double brackets, for each"
            return
    yield from network_cautions(lines, name)


def switch_fault(net, table, code, number, place):
    """Of a switch."""
    if not isinstance(table, dict):
        return [f"it is {type_name(table)}, and a table is needed"]
    if code == 2:
        return ["the key name is absent", *network_cautions(place.lines, place.name)]
    if code in (3, 4):
        return [next(filter(None, value_faults(table, place)), "")]
    if code == 6:
        names = [row["name"] for row in net["switch"][: number - 1]]
        first = names.index(table["name"]) + 1
        return [f"{place.of('name')}: switch {first} has the name {table['name']} too"]
    return [f"{place.of('ports')}: {twice(net, table, number)}"]


def value_faults(table, place):
    """What is wrong with a switch's values, in the order in which they are looked at."""
    name, ports = table["name"], table.get("ports", [])
    if not isinstance(name, str):
        yield f"{place.of('name')}: it is {type_name(name)}, and a text is needed"
    else:
        fault = fields.name_fault(name)
        yield fault and f"{place.of('name')}: {fault}"
    if not isinstance(ports, list):
        yield f"{place.of('ports')}: it is {type_name(ports)}, and an array is needed, as [1, 2]"
        return
    for is_type in (True, False):
        for port in ports:
            fault = number_said(port, 0, 63)
            if (type(port) is not int) == is_type:
                yield fault and f"{place.of('ports')}: {fault}"
    fault = number_said(table.get("authority", 0), 0, MOST_ROOM)
    yield fault and f"{place.of('authority')}: {fault}"


def twice(net, table, number):
    """The first port that occurs twice, and where it occurs before."""
    seen = {
        port: f"switch {at}, {row['name']}, has it too"
        for at, row in enumerate(net["switch"][: number - 1], 1)
        for port in row.get("ports", [])
    }
    counts = Counter(table["ports"])
    port = next(port for port in table["ports"] if port in seen or counts[port] > 1)
    return f"the port {port}: {seen.get(port, 'this switch has it twice')}"


def link_fault(net, table, code, number, place):
    """Of a link."""
    if not isinstance(table, dict):
        return [f"it is {type_name(table)}, and a table is needed"]
    if code == 2:
        return ["the key ends is absent", *network_cautions(place.lines, place.name)]
    ends = table["ends"]
    if code == 3:
        if not isinstance(ends, list):
            said = f"it is {type_name(ends)}"
        else:
            said = f"it has {', '.join(map(type_name, ends)) or 'nothing'}"
        return [f'{place.of("ends")}: {said}, and two names are needed, as ["a", "b"]']
    if code == 5:
        names = [row["name"] for row in net["switch"]]
        absent = next(end for end in ends if end not in names)
        near = get_close_matches(absent, names, 1)
        near = near or [name for name in names if name.lower() == absent.strip().lower()]
        lines = [f"{place.of('ends')}: {quoted(absent)} is not a switch"]
        lines += [f"perhaps {name}; capitals and blanks count" for name in near[:1]]
        return [*lines, f"the switches are {', '.join(names[:20])}"]
    if code == 8:
        return [f"{place.of('ends')}: both ends are {ends[0]}"]
    first = [set(row["ends"]) for row in net["link"]].index(set(ends)) + 1
    said = f"link {first} joins {ends[0]} and {ends[1]} too, and one link serves both directions"
    return [f"{place.of('ends')}: {said}"]
