#!/usr/bin/env python3
"""Checks that what pages and scripts link to exists: `checks/links.py`.

It looks at each link of a page to a file of this repository or to a heading, also where a link
`[text][label]` leads by a line `[label]: FILE`, and at each name of a crate's file in backticks,
such as `CRATE/src/FILE`. In pages, scripts and sources it looks at each name of a file of docs/,
checks/, desk/, model/ or bench/. It ends with 1 if there is no such file, no such line for a label,
or no link with the label of a line.
"""
import os
import re
import sys

from crates import HOME

PAGES = ("*.md", "docs/*.md", "bench/*.md", "model/*.md", "desk/**/*.md",
         "crates/examples/data/*/README.md")
OTHERS = ("bench/*.py", "desk/**/*.py", "checks/*.py", "checks/*.c", "model/*.py", "crates/*/src/**/*.rt")
LINK = re.compile(r"(?:\]\(|^\[\w+\]: )([^)#:\s]+)(?:#[^)]*)?(?:\)|$)")
HEADING = re.compile(r"(?:\]\(|^\[\w+\]: )([^)#:\s]*)#([^)]*)(?:\)|$)")
LABEL = re.compile(r"\]\[(\w+)\]")  # of a link; `LABELLED` is the line that says where it leads
LABELLED = re.compile(r"^\[(\w+)\]: ", re.M)
NAME = re.compile(r"\b(?:docs|checks|model|bench|desk)/[\w-]+\.\w+")
IN_CRATE = re.compile(r"`(?:crates/)?((?!crate/)\w+/(?:src|specs|proofs|must-fail)(?:/[\w./-]*)?)`")


def headings(path):
    """The names by which links lead to the headings of a page."""
    for line in path.read_text().splitlines():
        if line.startswith("#"):
            yield re.sub(r"[^\w\- ]", "", line.lstrip("# ").lower()).replace(" ", "-")


def missing(path):
    """The links of a file that lead nowhere, each with its line."""
    for number, line in enumerate(path.read_text().splitlines(), 1):
        named = [HOME / name for name in NAME.findall(re.sub(r"\]\([^)]*\)", "", line))]
        if path.suffix == ".md":
            named += [path.parent / link for link in LINK.findall(line)]
            named += [HOME / "crates" / name for name in IN_CRATE.findall(line)]
        for page, heading in HEADING.findall(line) if path.suffix == ".md" else ():
            page = path.parent / page if page else path
            if page.is_file() and heading not in headings(page):
                yield f"{path.relative_to(HOME)}:{number}: no heading {heading}"
        for file in named:
            if not file.exists():
                yield f"{path.relative_to(HOME)}:{number}: no {os.path.relpath(file, HOME)}"


def mislabelled(path):
    """The labels of a page that only a link has, or only a line that says where one leads."""
    text = re.sub(r"`[^`]*`", "", path.read_text()) if path.suffix == ".md" else ""
    for label in sorted({*LABEL.findall(text)} ^ {*LABELLED.findall(text)}):
        yield f"{path.relative_to(HOME)}: the label {label} is only that of a link, or of a line"


def main():
    files = sorted(path for pattern in PAGES + OTHERS for path in HOME.glob(pattern))
    faults = [fault for path in files for fault in (*missing(path), *mislabelled(path))]
    print("\n".join(faults) or f"all links of {len(files)} files exist")
    sys.exit(bool(faults))


main()
