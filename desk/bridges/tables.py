"""Reads the text that `difane show` prints, and takes no other text for it."""
import re
from typing import NamedTuple

from parts.script import Mistake

NAME = r"[A-Za-z][\w-]{0,15}"
WORD = r"[0-9a-f]{26}/[0-9a-f]{26}"
ACTION = r"drop|out:(?:\d|[1-5]\d|6[0-3])"
NUMBER = r"0|[1-9]\d{0,9}"
SHAPES = {
    "switch NAME version 1": rf"switch ({NAME}) version 1",
    "authority K": rf"authority ({NUMBER})",
    "part N region WORD rules M": rf"part ({NUMBER}) region ({WORD}) rules ({NUMBER})",
    "  rank R rule RULE word WORD ACTION":
        rf"  rank ({NUMBER}) rule ({NUMBER}|default) word ({WORD}) ({ACTION})",
    "partitions K": rf"partitions ({NUMBER})",
    "part N region WORD targets NAMES":
        rf"part ({NUMBER}) region ({WORD}) targets ({NAME}(?: {NAME}){{0,3}})",
}
TITLE, OWN, BLOCK, RULE, ALL, REGION = SHAPES


class Refused(Mistake):
    """A text is not a whole text of `show`; the message says in which line, and why."""


class Rule(NamedTuple):
    """A rule by which the switch decides: its rank, its row's name, its word and its action."""

    rank: int
    name: str
    word: str
    action: str


class Region(NamedTuple):
    """A partition: its number, its word, and the switches that decide it, the first one first."""

    part: int
    word: str
    targets: list


class Tables(NamedTuple):
    """What a switch has: its name, its rules, and all regions, its own among them."""

    switch: str
    rules: list
    regions: list

    def elsewhere(self):
        """The regions that other switches decide."""
        return [region for region in self.regions if self.switch not in region.targets]


def bits(word):
    """The value and the mask of a word."""
    value, mask = (int(half, 16) for half in word.split("/"))
    return value, mask


class Lines:
    """The lines of a text, taken one after another."""

    def __init__(self, text):
        self.lines, self.taken = text.removesuffix("\n").split("\n"), 0
        if not text:
            raise Refused("the text is empty, and no text of `difane show`")
        if not text.endswith("\n"):
            raise Refused(f"line {len(self.lines)}: the text is cut off: its last line has no end")

    def take(self, shape):
        """The fields of the next line, which must have this shape."""
        self.taken += 1
        if self.taken > len(self.lines):
            self.refuse(f"the text ends, and a line `{shape}` must follow")
        found = re.fullmatch(SHAPES[shape], self.lines[self.taken - 1], re.ASCII)
        if found is None:
            line = self.lines[self.taken - 1]
            self.refuse(f"a line `{shape}` must be here, and not {line[:60]!r}")
        for field in found.groups():
            if re.fullmatch(WORD, field) and bits(field)[0] & ~bits(field)[1]:
                self.refuse("the word has a bit that its mask leaves free")
        return found.groups()

    def refuse(self, why):
        raise Refused(f"line {self.taken}: {why}")

    def left(self):
        return self.lines[self.taken :]


def own_block(lines):
    """A partition that the switch decides: its number and word, and its rules."""
    part, word, count = lines.take(BLOCK)
    rules = []
    for _ in range(int(count)):
        rank, *rest = lines.take(RULE)
        rules.append(Rule(int(rank), *rest))
    return (int(part), word), rules


def read_tables(text):
    """The tables of a whole text of `show`, and the lines after it."""
    lines = Lines(text)
    (switch,) = lines.take(TITLE)
    (count,) = lines.take(OWN)
    blocks = [own_block(lines) for _ in range(int(count))]
    (count,) = lines.take(ALL)
    regions = []
    for number in range(int(count)):
        part, word, targets = lines.take(REGION)
        if int(part) != number:
            lines.refuse(f"part {number} must be here")
        regions.append(Region(number, word, targets.split(" ")))
    own = [(part, word) for part, word, targets in regions if switch in targets]
    if own != [block for block, _ in blocks]:
        lines.refuse(f"the parts with the target {switch} aren't those whose rules are above")
    return Tables(switch, [rule for _, rules in blocks for rule in rules], regions), lines.left()


def read_file(path):
    """The tables in a file."""
    try:
        held, after = read_tables(path.read_text("ascii", "backslashreplace"))
    except Refused as refused:
        raise Refused(f"{path} {refused}") from refused
    if after:
        raise Refused(f"{path}: there are lines after the tables")
    return held
