"""Reads maps of prefixes to switches, and the names of a network's switches."""
import csv
import re
import tomllib

from parts.places import file_of
from parts.table import plural
from readers.common import Refused, address_text, prefix_of

HEADING = ["prefix", "switch"]
NAME = re.compile(r"[A-Za-z][A-Za-z0-9_-]{0,15}")


def checked_prefix(where, text):
    """The address and the length of a prefix; `where` is printed before what is wrong with it."""
    found = prefix_of(text)
    if found is None:
        raise Refused(f"{where}: {text!r} is not an IPv4 prefix")
    address, length = found
    start = address >> 32 - length << 32 - length
    if start != address:
        meant = address_text(start)
        raise Refused(f"{where}: {text} has bits after its length: {meant}/{length} has none")
    return found


class Map:
    """At which switch each source enters: that of the longest prefix that has it."""

    def __init__(self):
        self.tables, self.known, self.places = {}, {}, {}

    def add(self, where, prefix, switch):
        """Adds a prefix; `where` is printed before what is wrong with it."""
        address, length = checked_prefix(where, prefix)
        if not NAME.fullmatch(switch) or switch == "controller":
            raise Refused(f"{where}: {switch!r} is not a switch's name")
        key = address >> 32 - length
        table = self.tables.setdefault(length, {})
        if key in table:
            raise Refused(f"{where}: {prefix} is named before")
        table[key] = switch
        self.places.setdefault(switch, where)
        self.tables = dict(sorted(self.tables.items(), reverse=True))

    def switch_of(self, source):
        """The switch of a source, or nothing."""
        if source not in self.known:
            found = (table.get(source >> 32 - length) for length, table in self.tables.items())
            self.known[source] = next(filter(None, found), None)
        return self.known[source]


def pairs_of(name, heading):
    """The two fields of each row of a CSV file with this heading, and where the row is."""
    with open(file_of(name), newline="", encoding="utf-8-sig", errors="replace") as file:
        reader = csv.reader(file)
        try:
            if [text.strip() for text in next(reader, [])] != heading:
                raise Refused(f"{name}:1: the heading isn't {','.join(heading)}")
            for fields in filter(None, reader):
                where = f"{name}:{reader.line_num}"
                if len(fields) != 2:
                    wanted = " and ".join(f"a {word}" for word in heading)
                    raise Refused(f"{where}: {plural(len(fields), 'field')}, not {wanted}")
                yield where, *(text.strip() for text in fields)
        except csv.Error as why:
            raise Refused(f"{name}:{reader.line_num}: {why}") from why


def read_map(name):
    """The map in a file: TOML where its name ends so, and else CSV."""
    pairs = toml_pairs(name) if name.endswith(".toml") else pairs_of(name, HEADING)
    found = Map()
    for where, prefix, switch in pairs:
        found.add(where, prefix, switch)
    return found


def read_toml(name):
    """The document in a file, and the file's lines."""
    try:
        text = file_of(name).read_text(encoding="utf-8")
        return tomllib.loads(text), text.split("\n")
    except ValueError as why:
        raise Refused(f"{name}: {why}") from why


def toml_pairs(name):
    """Each prefix and its switch of a map whose keys are switches, and where the prefix is."""
    (document, lines), line = read_toml(name), 1
    for switch, prefixes in document.items():
        line = line_with(lines, line, switch)
        for prefix in prefixes if isinstance(prefixes, list) else [prefixes]:
            line = line_with(lines, line, prefix)
            where = f"{name}:{line}: {switch}"
            if not isinstance(prefix, str):
                raise Refused(f"{where}: {prefix!r} is not a prefix in quotes")
            yield where, prefix, switch


def line_with(lines, first, value):
    """The number of the first line from this one on that has a value, or of this one."""
    text = re.compile(rf"(?<![\w.]){re.escape(str(value))}(?![\w./])")
    numbers = range(first, len(lines) + 1)
    return next((at for at in numbers if text.search(lines[at - 1].split("#")[0])), first)


def names_of(name):
    """The names of the switches of a network's file."""
    rows = read_toml(name)[0].get("switch")
    if not isinstance(rows, list):
        raise Refused(f"{name}: it has no switches")
    return {str(row.get("name")) for row in rows if isinstance(row, dict)}
