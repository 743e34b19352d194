#!/usr/bin/env python3
"""Checks that docs/THEOREM.md has each item and each field of a journal: `checks/items.py`.

The table that begins with HEAD has a row for each variant of `Item`, in its order. In the row's
other cells each field of the variant occurs once in backticks. It ends with 1 if an item or a
field is missing, or occurs twice.
"""
import re
import sys

from crates import HOME

SOURCE, PAGE = HOME / "crates/journal/src/item.rt", HOME / "docs/THEOREM.md"
HEAD = "| Item | First tier | Strong causes | Exact journal |\n"
VARIANT = re.compile(r"^    (\w+)(?: \{(.*?)^    \})?,$", re.M | re.S)


def items():
    """The fields of each item, by its name."""
    text = SOURCE.read_text().split("pub enum Item {\n")[1].split("\n}\n")[0]
    bare = re.sub(r"^\s*///.*\n", "", text + "\n", flags=re.M)
    return {name: re.findall(r"(\w+):", body) for name, body in VARIANT.findall(bare)}


def rows():
    """The names in the cells of each row, by the item in its first cell."""
    table = PAGE.read_text().split(HEAD)[1].split("\n\n")[0].splitlines()[1:]
    for line in table:
        first, *rest = line.strip("|").split("|")
        yield first.strip(" `"), re.findall(r"`(\w+)`", " ".join(rest))


def faults():
    known, told = items(), dict(rows())
    if [*told] != [*known]:
        yield f"docs/THEOREM.md has other items, or another order: {[*known]}"
    for name, fields in known.items():
        found = [word for word in told.get(name, []) if word in fields]
        for field in fields:
            if found.count(field) != 1:
                yield f"docs/THEOREM.md: field {field} of {name} occurs {found.count(field)} times"


def main():
    found = list(faults())
    print("\n".join(found) or f"{sum(map(len, items().values()))} fields of {len(items())} items")
    sys.exit(bool(found))


main()
