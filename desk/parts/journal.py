"""Reads journals, a line at a time.

The forms are those of docs/FORMATS.md. A name in capitals means a value; `by=cache` means the
text `cache`, which is kept as `by`.
"""
import re
from typing import NamedTuple

from .script import Mistake

FORMS = """
row ROW: event=hop PACKET
row ROW: event=deliver MESSAGE
row ROW: event=packet SWITCH SRC DST SPORT DPORT PROTO
row ROW: event=lose PACKET
row ROW: event=forget MESSAGE
row ROW: event=expire SWITCH PLACE
row ROW: event=update FILE
row ROW: event=linkdown SWITCH OTHER
row ROW: event=linkup SWITCH OTHER
row ROW: event=crash SWITCH
row ROW: event=restart SWITCH
row ROW: event=confirm SWITCH
row ROW: event=resend SWITCH
entered PACKET SWITCH
closed PACKET SWITCH
tunnelled PACKET vVERSION part PART via ROUTE
hopped PACKET SWITCH
found PACKET SWITCH OTHER
rerouted PACKET via ROUTE
decided PACKET vVERSION rule RULE ACTION by=authority SWITCH part PART
decided PACKET vVERSION rule RULE ACTION by=cache MESSAGE
sent MESSAGE SWITCH body=cache version VERSION word WORD rule RULE ACTION
sent MESSAGE SWITCH body=advert OTHER boot BOOT seq SEQ up NAMES
sent MESSAGE SWITCH body=install boot BOOT version VERSION
sent MESSAGE SWITCH body=stamp boot BOOT version VERSION
sent MESSAGE SWITCH body=collect boot BOOT version VERSION
sent MESSAGE SWITCH body=open boot BOOT version VERSION
sent MESSAGE to=controller body=installed SWITCH boot BOOT version VERSION
sent MESSAGE to=controller body=stamped SWITCH boot BOOT version VERSION
sent MESSAGE to=controller body=hello SWITCH boot BOOT
delivered MESSAGE
forgotten MESSAGE
expired SWITCH PLACE message MESSAGE
submitted file FILE version VERSION
refused file FILE code CODE
current VERSION
retired VERSION
exit PACKET via ROUTE
out PACKET port PORT
dropped PACKET
lost PACKET
stuck PACKET SWITCH CAUSE
link SWITCH OTHER NEWS
down SWITCH
booted SWITCH BOOT
opened SWITCH version VERSION
over SWITCH
nothing
meter port PORT notes COUNT
quiet VERDICT
"""

NUMBERS = (
    "ROW PACKET MESSAGE SPORT DPORT PLACE FILE VERSION PART BOOT SEQ CODE PORT COUNT".split()
)
NAME = r"(?!controller )[A-Za-z][\w-]{0,15}"
ADDRESS = r"\d{1,3}(?:\.\d{1,3}){3}"
VALUES = {
    **dict.fromkeys(NUMBERS, r"\d{1,10}"),
    "SWITCH": NAME,
    "OTHER": NAME,
    "ROUTE": f"{NAME}(?: {NAME})*",
    "NAMES": f"-|{NAME}(?: {NAME})*",
    "SRC": ADDRESS,
    "DST": ADDRESS,
    "PROTO": r"icmp|tcp|udp|\d{1,3}",
    "RULE": r"\d{1,10}|default",
    "ACTION": r"drop|out:\d{1,2}",
    "WORD": "[0-9a-f]{26}/[0-9a-f]{26}",
    "CAUSE": "no-authority|no-route",
    "NEWS": "up|down",
    "VERDICT": "yes|no",
}
FACTS_AFTER = ("meter", "quiet")  # the lines after a journal, at the left edge


class Item(NamedTuple):
    """One line: its number in the file, the row that it follows from, its kind, what it says."""

    line: int
    row: int
    kind: str
    said: dict
    text: str

    def mistake(self, why):
        """The mistake of a journal that can't go on so."""
        return Mistake(f"line {self.line} of the journal: {why}")


def pattern_of(form):
    """The form as a regular expression, whose groups are the names of its values."""

    def group(match):
        name, text = match[1] or match[3], match[2] or VALUES.get(match[3])
        return f"(?P<{name.lower()}>{text})"

    return re.compile(re.sub(r"([a-z]+)=([a-z]+)|([A-Z]+)", group, form), re.ASCII)


def reader_of(form):
    """What reads a line of this form: its pattern, and its groups that are numbers and lists."""
    pattern = pattern_of(form)
    numbers = [name for name in pattern.groupindex if name.upper() in NUMBERS]
    lists = [name for name in pattern.groupindex if name in ("route", "names")]
    return pattern, numbers, lists


def readers():
    """The readers of each kind of lines, by the first text of their forms."""
    found = {}
    for form in FORMS.strip().splitlines():
        found.setdefault(form.split()[0], []).append(reader_of(form))
    return found


READERS = readers()


def said_by(text):
    """What a line without its first blanks says, or None where no form fits."""
    for pattern, numbers, lists in READERS.get(text.partition(" ")[0], ()):
        match = pattern.fullmatch(text)
        if match:
            said = match.groupdict()
            for name in numbers:
                said[name] = int(said[name])
            for name in lists:
                said[name] = said[name].split()
            return said
    return None


def is_indented(kind):
    """Whether lines of this kind begin with two blanks."""
    return kind != "row" and kind not in FACTS_AFTER


def items_of(lines, name="the journal"):
    """The items of these lines of a journal, in order; a line that is none is a mistake."""
    row, last, ended = 0, 0, False
    for number, line in enumerate(lines, 1):
        text = line.removesuffix("\n")
        bare = text.removeprefix("  ")
        kind = bare.partition(" ")[0]
        said = said_by(bare) if is_indented(kind) == (bare != text) else None
        if said is None or (row == 0 and is_indented(kind)):
            raise Mistake(f"{name}, line {number}: {text[:60]!r} is not a line of a journal")
        if kind in FACTS_AFTER:
            row, ended = 0, True
        elif kind == "row":
            row = said["row"]
            if ended or row < last:
                raise Mistake(f"{name}, line {number}: row {row} is after the journal's end")
            last = row
        yield Item(number, row, kind, said, bare)


def read_items(path):
    """The items of the journal in this file, one at a time."""
    with open(path, encoding="utf-8", errors="replace") as file:
        yield from items_of(whole_lines(file, path), path)


def whole_lines(file, path):
    """The lines of a file, of which each has its end: a number that is cut is another one."""
    for number, line in enumerate(file, 1):
        if not line.endswith("\n"):
            raise Mistake(f"{path}, line {number}: the journal is cut off: this line has no end")
        yield line
