#!/usr/bin/env python3
"""Writes the crates into docs/MAP.md and docs/map.svg: `checks/map.py [--check]`.

In its part PART the page has a heading for each layer, the lowest first, and under it a table with
a row for each crate. The name of the crate is written by hand; the script writes the rest of the
row: what the crate is for, which is the first sentence of its root file, and which crates it
depends on, without those that follow from others: if A uses B and C, and B depends on C, the row
of A has only B. The picture has the same lines, by `dot` (Debian's package graphviz).

With `--check` it only compares. It ends with 1 if a crate is in no layer or in two, or uses one of a
later layer; if the page has a row that names no crate; if the page or the picture differ from
crates.txt and the root files; if crates.txt, whose comments are the headings of the layers, has
other layers; or if a crate with contracts has no part in docs/PROVED.md or docs/CLAUSES.md.
"""
import html
import re
import subprocess
import sys

from crates import HOME, below, height, layers, sources, uses

PICTURE, PAGE = HOME / "docs/map.svg", HOME / "docs/MAP.md"
PROVED = HOME / "docs/PROVED.md", HOME / "docs/CLAUSES.md"
PART = "## The crates by layer\n"
HEAD = "| Crate | What it is for | Depends on |\n|---|---|---|\n"
NAMED = re.compile(r"^\| `(\w+)` \|.*\n", re.M)
COLOURS = ["#eceff4", "#dbe9f9", "#fff2c9", "#e3f3dc", "#f8e0d5", "#e9e1f5", "#f4f4f4"]


def root_of(name):
    return sources(name, "src/lib.rt", "src/main.rt")[0].read_text()


def purpose(name):
    """The first sentence of a crate's root file."""
    lines = (line.removeprefix("//!").strip() for line in root_of(name).splitlines())
    return re.match(r".*?[.](?=\s|$)", " ".join(lines))[0]


def stands_on(name):
    """The crates right below this one."""
    own = uses()[name]
    return [other for other in own if not any(other in below(third) for third in own)]


def is_proved(name):
    """Whether a crate has contracts of its own: programs and crates of tests alone have none."""
    return not sources(name, "src/main.rt") and "#[cfg(test)]" not in root_of(name)


# ---- the page


def parts_of(page):
    """The text before the part on layers, its pieces by layer, and the text after it."""
    before, rest = page.split(PART)
    part, *behind = re.split(r"^(?=## )", rest, maxsplit=1, flags=re.M)
    first, *layers = re.split(r"^(?=### )", part, flags=re.M)
    return before + PART + first, layers, "".join(behind)


def layers_of(page):
    """The names of the rows of each layer."""
    return [NAMED.findall(layer) for layer in parts_of(page)[1]]


def headings_of(page):
    """The headings of the layers, in order."""
    return [layer.partition("\n")[0].removeprefix("### ") for layer in parts_of(page)[1]]


def row(name):
    others = [f"`{other}`" for other in stands_on(name)]
    return " ".join([f"| `{name}` | {purpose(name)} |", *filter(None, [", ".join(others)]), "|\n"])


def written(layer):
    """The piece of a layer with its rows anew, in the order of crates.txt."""
    names = NAMED.findall(layer)
    known = [row(name) for name in uses() if name in names]
    unknown = [f"| `{name}` | | |\n" for name in names if name not in uses()]
    start = layer.index(HEAD) + len(HEAD)
    return layer[:start] + "".join(known + unknown) + NAMED.sub("", layer[start:])


def page_anew(page):
    first, layers, behind = parts_of(page)
    return first + "".join(map(written, layers)) + behind


# ---- the picture


def lines_of():
    return {f"{name}->{other}" for name in uses() for other in stands_on(name)}


def draw(layers):
    parts = ["digraph crates {", 'rankdir="TB" ranksep=0.45 nodesep=0.25']
    parts.append('node [shape=box style="rounded,filled" fontname="sans-serif" fontsize=12]')
    parts.append("node [height=0.35]")
    parts.append('edge [color="#667" arrowsize=0.6]')
    for colour, names in zip(COLOURS, layers):
        parts += [f'"{name}" [fillcolor="{colour}"]' for name in names if name in uses()]
    parts += [f'"{name}" -> "{other}"' for name in uses() for other in stands_on(name)]
    for level in sorted(set(map(height, uses()))):
        parts.append(f"{{rank=same; {' '.join(name for name in uses() if height(name) == level)}}}")
    text = "\n".join([*parts, "}"])
    done = subprocess.run(["dot", "-Tsvg"], input=text, capture_output=True, text=True, check=True)
    PICTURE.write_text(done.stdout)


# ---- what is wrong


def misplaced(layers):
    """The crates that don't stand in one layer, and the uses of one of a later layer."""
    every = [name for names in layers for name in names]
    for name in sorted({*every} | {*uses()}):
        if name not in uses():
            yield f"docs/MAP.md: {name} is no crate"
        elif every.count(name) != 1:
            yield f"docs/MAP.md: {name} is in {every.count(name)} layers"
    place = {name: k for k, names in enumerate(layers) for name in names}
    for name in uses():
        for other in uses()[name]:
            if place.get(name, 0) < place.get(other, 0):
                yield f"docs/MAP.md: {name} uses {other}, which is of a later layer"


def differences():
    page, proved = PAGE.read_text(), "".join(path.read_text() for path in PROVED)
    yield from misplaced(layers_of(page))
    if [*layers().items()] != [*zip(headings_of(page), layers_of(page))]:
        yield "crates.txt has other layers than docs/MAP.md, or in another order"
    if page_anew(page) != page:
        yield "docs/MAP.md: the rows aren't those of crates.txt and the root files"
    titles = map(html.unescape, re.findall(r"<title>(.*?)</title>", PICTURE.read_text()))
    for line in sorted({title for title in titles if "->" in title} ^ lines_of()):
        yield f"docs/map.svg: {line} is drawn or missing wrongly"
    for name in uses():
        if is_proved(name) and not re.search(rf"^(?:\||#+ [^`\n]*) ?`{name}`", proved, re.M):
            yield f"docs/CLAUSES.md: {name} has no place"


def main():
    if sys.argv[1:] == []:
        page = page_anew(PAGE.read_text())
        PAGE.write_text(page)
        draw(layers_of(page))
    elif sys.argv[1:] != ["--check"]:
        sys.exit(__doc__)
    found = list(differences())
    print("\n".join(found) or "the map is that of crates.txt and the root files")
    sys.exit(bool(found))


main()
