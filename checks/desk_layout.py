#!/usr/bin/env python3
"""Checks the drawings of desk/draw and desk/view: `checks/desk_layout.py [NETWORKS]`.

It draws random networks of up to 64 switches (200 where no number is given): rings, trees, grids,
stars, and any links, with long and short names. In each a packet walks over links, and sends a
cache rule back. No link, no hop and no message may run through a switch that it doesn't touch, no
two switches may overlap, and each link must begin and end in its switches. The shapes
of desk/draw are those of its SVG; those of desk/view are the points that the page draws, which
`checks/view_check.py` compares with a browser's.
"""
import io
import json
import random
import re
import runpy
import sys
import tempfile
from contextlib import redirect_stdout
from itertools import combinations, pairwise
from math import dist
from pathlib import Path
from xml.etree import ElementTree

HOME = Path(__file__).resolve().parent.parent
NETWORKS, SWITCHES, LINKS = 200, 64, 256

sys.dont_write_bytecode = True
sys.path.insert(0, str(HOME / "desk"))

from parts import page
from parts.folder import case_of

WORD = "0" * 26


# Random networks.


def ring(rng, count):
    return [(k, (k + 1) % count) for k in range(count)]


def tree(rng, count):
    return [(k, rng.randrange(k)) for k in range(1, count)]


def star(rng, count):
    return [(0, k) for k in range(1, count)] + [(k, k + 1) for k in range(1, count - 1)]


def grid(rng, count):
    """Also a line, and a grid with links that pass over a switch."""
    wide = rng.randint(1, count)
    near = [(k, k + 1) for k in range(count - 1) if (k + 1) % wide]
    below = [(k, k + wide) for k in range(count - wide)]
    over = [(k, k + 2) for k in range(count - 2) if rng.random() < 0.2]
    return near + below + over


def any_links(rng, count):
    pairs = list(combinations(range(count), 2))
    return rng.sample(pairs, min(len(pairs), rng.choice([count // 2, count, 2 * count, LINKS])))


def network(rng):
    """The names of switches, links between them, and which of them have ports."""
    count = rng.choice([rng.randint(1, 12), rng.randint(1, SWITCHES)])
    long = rng.choice([1, 1, 3, 14])
    names = [f"{'W' * rng.randint(1, long)}{k}" for k in range(count)]
    rng.shuffle(names)
    pairs = rng.choice([ring, tree, star, grid, any_links])(rng, count)
    links = list({frozenset(ends): None for ends in pairs if len({*ends}) == 2})[:LINKS]
    ports = rng.sample(range(count), rng.randint(0, count))
    return names, [tuple(names[end] for end in ends) for ends in links], ports


def net_text(rng, names, links, ports):
    """The network as a file."""
    for number, name in enumerate(names):
        room = rng.choice(["", "authority = 9\n"])
        yield f'[[switch]]\nname = "{name}"\n{room}' + f"ports = [{number}]\n" * (number in ports)
    for one, other in links:
        yield f'[[link]]\nends = ["{one}", "{other}"]\n'


def journal_text(rng, names, links):
    """A packet that walks at random from the longest name, and is decided where it stops."""
    here = ingress = max(names, key=len)
    lines = [f"row 1: packet {here} 10.0.0.1 10.0.0.2 1 2 tcp", f"  entered 1 {here}"]
    for row in range(2, rng.randint(3, 12)):
        near = [end for ends in links if here in ends for end in ends if end != here]
        if near:
            here = rng.choice(near)
            lines += [f"row {row}: hop 1", f"  hopped 1 {here}"]
    lines += ["row 20: hop 1", f"  decided 1 v1 rule 7 drop authority {here} part 0"]
    if here != ingress:
        lines += [f"  sent 1 {ingress} cache version 1 word {WORD}/{WORD} rule 7 drop"]
    return "".join(f"{line}\n" for line in [*lines, "  dropped 1"])


def write(seed, folder):
    """A random network with a journal."""
    rng = random.Random(seed)
    names, links, ports = network(rng)
    (folder / "net.toml").write_text("".join(net_text(rng, names, links, ports)))
    (folder / "journal.txt").write_text(journal_text(rng, names, links))
    return links


# What is drawn: boxes by their names (left, top, right, foot), and lines (a kind, ends, points).


def points_in(text):
    numbers = [float(number) for number in re.findall(r"-?[\d.]+", text)]
    return list(zip(numbers[::2], numbers[1::2]))


def drawn_by_draw(folder):
    """The boxes and lines of the picture of packet 1."""
    out, args = io.StringIO(), sys.argv
    sys.argv = ["draw", str(folder), "1"]
    with redirect_stdout(out):
        runpy.run_path(str(HOME / "desk/draw"))
    sys.argv = args
    boxes, lines = {}, []
    for shape in ElementTree.fromstring(out.getvalue()):
        said = shape.attrib
        if "data-switch" in said:
            x, y, wide, high = (float(said[name]) for name in ("x", "y", "width", "height"))
            boxes[said["data-switch"]] = x, y, x + wide, y + high
        if "data-ends" in said:
            points = points_in(said.get("points") or said["d"])
            lines.append((said["class"], said["data-ends"].split(), points))
    return boxes, lines


def drawn_by_view(folder):
    """The boxes, the links and the arrows of a page, by its data."""
    text = page.page_of(case_of(str(folder)))
    data = json.loads(re.search('<script type="application/json" id="data">(.*)</script>', text)[1])
    names, (wide, high) = [one["name"] for one in data["switches"]], data["box"]
    boxes = {}
    for one in data["switches"]:
        x, y = one["at"]
        boxes[one["name"]] = x - wide, y - high, x + wide, y + high
    lines = []
    for one, other, *three in data["links"]:
        ends = [names[one], names[other]]
        lines += zip(("link", "arrow", "arrow"), (ends, ends, ends[::-1]), three)
    return boxes, lines


# What is wrong with it.


def is_in(point, box):
    return box[0] < point[0] < box[2] and box[1] < point[1] < box[3]


def spots(points):
    """Points along a line, a pixel apart."""
    for (a, b), (c, d) in pairwise(points):
        steps = int(dist((a, b), (c, d))) + 1
        yield from ((a + (c - a) * k / steps, b + (d - b) * k / steps) for k in range(steps + 1))


def faults_of(boxes, lines, links):
    """What is wrong with a drawing."""
    for (one, a), (two, b) in combinations(boxes.items(), 2):
        if a[0] < b[2] and b[0] < a[2] and a[1] < b[3] and b[1] < a[3]:
            yield f"{one} and {two} overlap"
    drawn = [frozenset(ends) for kind, ends, _ in lines if kind == "link"]
    if sorted(map(sorted, drawn)) != sorted(map(sorted, links)):
        yield "other links are drawn than there are"
    for kind, ends, points in lines:
        along = list(spots(points))
        strange = (name for name, box in boxes.items() if name not in ends)
        met = [name for name in strange if any(is_in(spot, boxes[name]) for spot in along)]
        yield from (f"a {kind} {' '.join(ends)} runs through {name}" for name in met)
        if kind == "link" and not all(map(is_in, (points[0], points[-1]), map(boxes.get, ends))):
            yield f"the link {' '.join(ends)} ends elsewhere"


def network_faults(seed):
    """The faults of both drawings of a random network, and how many of its links bend."""
    with tempfile.TemporaryDirectory() as name:
        folder, bent = Path(name), 0
        links = write(seed, folder)
        faults = []
        for script, drawn in (("draw", drawn_by_draw), ("view", drawn_by_view)):
            boxes, lines = drawn(folder)
            bent += sum(kind == "link" and len(points) > 2 for kind, _, points in lines)
            faults += [f"seed {seed}, {script}: {why}" for why in faults_of(boxes, lines, links)]
    return faults, len(links), bent


def main():
    if len(sys.argv) > 2 or not all(arg.isdecimal() for arg in sys.argv[1:]):
        sys.exit(__doc__)
    count = int(sys.argv[1]) if sys.argv[1:] else NETWORKS
    found = [network_faults(seed) for seed in range(count)]
    faults = [fault for faults, _, _ in found for fault in faults]
    links, bent = (sum(one[k] for one in found) for k in (1, 2))
    print(f"{count} networks, {2 * links} links drawn, {bent} of them bent: {len(faults)} faults")
    print("\n".join(faults[:20]))
    sys.exit(bool(faults))


if __name__ == "__main__":
    main()
