#!/usr/bin/env python3
"""Checks that the names on the pages exist: `checks/words.py`.

It looks at each name in backticks, or in a line of code, that has an underscore or a capital inside
it. Some file of crates/, checks/, desk/, model/ or bench/ must have that word, or its path must;
the names of `OTHERS` are those of std, of its crates and of the kit. It ends with 1 if one doesn't.
"""
import re
import sys

from crates import HOME

PAGES = ("*.md", "docs/*.md")
SOURCES = ("crates/**/*", "checks/*", "desk/**/*", "model/*", "bench/*", "crates.txt")
OTHERS = {"also_owns", "ptr_eq", "shift_remove_index", "start_io", "start_lib", "command_input"}
NAME = re.compile(r"\b[A-Za-z]\w*_\w+|\b[A-Z][a-z]\w*[A-Z]\w*")


def known():
    """The words of all sources and of their paths."""
    found = set(OTHERS)
    for path in {path for pattern in SOURCES for path in HOME.glob(pattern)}:
        if path.is_file() and path.suffix != ".md" and "out" not in path.parts:
            found.update(re.findall(r"\w+", str(path.relative_to(HOME))))
            found.update(re.findall(r"\w+", path.read_text(errors="ignore")))
    return found


def names(page):
    """The names on a page, each with its line."""
    fenced = False
    for number, line in enumerate(page.read_text().splitlines(), 1):
        fenced ^= line.startswith("```")
        code = line if fenced or re.match(r"    \S", line) else " ".join(re.findall(r"`([^`]*)`", line))
        for name in NAME.findall(code):
            yield number, name


def main():
    words, count, faults = known(), 0, []
    for page in sorted(path for pattern in PAGES for path in HOME.glob(pattern)):
        for number, name in names(page):
            count += 1
            if name not in words:
                faults.append(f"{page.relative_to(HOME)}:{number}: nothing is called {name}")
    print("\n".join(faults) or f"all {count:,} names on the pages exist")
    sys.exit(bool(faults))


main()
