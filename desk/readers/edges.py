"""Reads lists of edges: two names a line, separated by blanks, or CSV."""
import csv
import re

from readers.common import Named, Refused
from readers.flows import name_of
from readers.maps import NAME

FORM = "(up to 16 letters, digits, - and _)"
TITLES = [
    "source src from node1 nodea switch1 switcha end1 enda".split(),
    "target dst to node2 nodeb switch2 switchb end2 endb destination dest".split(),
]


class Edges:
    """The switches and the links of a list, in its order; what is left out or there before."""

    def __init__(self, lines):
        self.switches, self.links = {}, {}
        self.left, self.before, self.renamed = Named("line"), Named("line"), Named("line")
        rows = list(rows_of(lines))
        places = places_of(rows[0][1]) if rows else None
        check_columns([] if places else rows)
        for number, fields in rows[1:] if places else rows:
            texts = [fields[at] for at in places or (0, 1) if at < len(fields)]
            self.add(number, [text.strip() for text in texts if text.strip()])

    def add(self, number, texts):
        """Adds a line: a link, or a switch where it has but one name."""
        wrong = next((text for text in texts if not is_name(text)), None)
        if wrong is not None or not texts:
            self.left.add(number, f"{wrong or ''!r} is not a switch's name {FORM}")
            return
        names = [named(text) for text in texts]
        if names != texts:
            self.renamed.add(number, "as names begin with a letter")
        if len(names) == 2 and names[0] == names[1]:
            self.left.add(number, "a link from a switch to itself")
        elif frozenset(names) in self.links:
            self.before.add(number, "a repeated link")
        else:
            self.switches |= dict.fromkeys(names)
            self.links |= {frozenset(names): names} if len(names) == 2 else {}

    def near(self):
        """The switches to which each has a link."""
        found = {name: [] for name in self.switches}
        for one, other in self.links.values():
            found[one].append(other)
            found[other].append(one)
        return found


def named(text):
    """The name of a switch: a number gets an s before it."""
    return f"s{text}" if text[0].isdigit() else text


def is_name(text):
    return NAME.fullmatch(named(text)) is not None and text != "controller"


def rows_of(lines):
    """The fields of each line that has any, with its number; comments begin with #."""
    lines = [(number, line.split("#")[0].strip()) for number, line in enumerate(lines, 1)]
    lines = [(number, line) for number, line in lines if line]
    sign = next((sign for sign in ",;" if lines and sign in lines[0][1]), None)
    for number, line in lines:
        fields = next(csv.reader([line], delimiter=sign), []) if sign else line.split()
        yield number, fields


def check_columns(rows):
    """That lines have as many further columns that begin with letters: those of a text haven't."""
    counts = {sum(text[:1].isalpha() for text in fields[2:]): number for number, fields in rows}
    if len(counts) > 1:
        lines = " and ".join(map(str, sorted(counts.values())[:2]))
        raise Refused(f"this is not a list of edges: lines {lines} differ in their columns; a "
                      "heading such as source,target says which columns count")


def places_of(titles):
    """The columns of both names where the first line is a heading, or nothing."""
    names = [re.sub(r"name$|id$", "", name_of(title)) for title in titles]
    found = [[names.index(title) for title in known if title in names] for known in TITLES]
    return [places[0] for places in found] if all(found) else None


def parts(near):
    """The parts of a network that no link joins, each as its switches in order."""
    found, seen = [], set()
    for start in near:
        if start not in seen:
            part, level = {start}, [start]
            while level:
                level = [far for here in level for far in near[here] if far not in part]
                part |= set(level)
            seen |= part
            found.append([name for name in near if name in part])
    return found
