"""The records of CSV files and the keys of networks, each with its lines."""
import csv
import re
from itertools import islice
from typing import NamedTuple

csv.field_size_limit(1 << 25)


class Record(NamedTuple):
    """A record: its row (the heading's is 0), its first and last line, and its fields."""

    row: int
    line: int
    last: int
    fields: list


def lines_of(path):
    """The lines of a file as text, without a byte-order mark; bytes that are no UTF-8 stay."""
    with open(path, newline="", encoding="utf-8-sig", errors="surrogateescape") as file:
        return list(file)


def records_of(lines):
    """The records of these lines; blank lines are none."""
    reader, row, before = csv.reader(lines), 0, 0
    for fields in reader:
        if fields:
            yield Record(row, before + 1, reader.line_num, fields)
            row += 1
        before = reader.line_num


def record_at(path, row):
    """The record of this row, or None where the file has fewer."""
    return next(islice(records_of(lines_of(path)), row, None), None)


def is_open(line):
    """Whether a quoted field begins in the line and doesn't end there."""
    return line.count('"') % 2 == 1


def quoted(text):
    """The text in double quotes; what can't be seen or isn't ASCII's blank is spelled."""
    return '"' + "".join(map(spelled, text)) + '"'


def spelled(letter):
    """The letter itself where it can be seen, or its escape."""
    code = ord(letter)
    if 0xDC80 <= code <= 0xDCFF:
        return f"\\x{code - 0xDC00:02x}"
    return letter if letter.isprintable() else letter.encode("unicode_escape").decode()


def quoted_if_odd(text):
    """A field as it is, or in quotes where blanks, quotes or commas would be missed."""
    plain = re.fullmatch(r"[!#-+\--~]+( [!#-+\--~]+)*", text)
    return text[:200] if plain else quoted(text)[:200]


# Networks.


HEADER = re.compile(r"\s*\[\[?\s*([\w.-]+)\s*\]\]?")


def header_line(lines, key, number):
    """The line of the number-th header `[[key]]`, or of the key itself; None where neither is."""
    found = [at for at, line in enumerate(lines, 1) if header_of(line) == key]
    if found:
        return found[number - 1] if number <= len(found) else None
    return key_line(lines, key, 1)


def header_of(line):
    """The name in a header of TOML, or None for another line."""
    match = HEADER.match(line)
    return match[1] if match else None


def key_line(lines, key, start):
    """The line of a key from the line `start` on, up to the next header; None where it isn't."""
    for at, line in enumerate(lines[start - 1 :], start):
        if re.match(rf"\s*[\"']?{re.escape(key)}[\"']?\s*=", line):
            return at
        if at > start and header_of(line):
            return None
    return None
