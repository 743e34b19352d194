#!/usr/bin/env python3
"""The output of `load`, computed independently from its definition and slowly.

usage: model/load_case.py N

The case is that of docs/FORMATS.md: a linear congruential generator makes its policies and packets.
The play is that of `model/slow_replay.py`, and the counts are those of its journal's lines.
"""
import csv
import re
import sys
import tempfile
from collections import Counter
from pathlib import Path

import slow_replay

HEADING = "priority src dst sport dport proto action".split()
RING = [(one, (one + 1) % 8) for one in range(8)] + [(0, 4), (2, 6)]
NET = {
    "leaf_rules": 32, "backups": 1, "cache": 16,
    "switch": [
        {"name": f"n{i}", "ports": [i], "authority": 8192 if i in (1, 5) else 0} for i in range(8)
    ],
    "link": [{"ends": [f"n{one}", f"n{other}"]} for one, other in RING],
}
TITLES = {"packets": "entered|closed", "closed": "closed", "delivered": "out", "dropped": "dropped",
          "lost": "lost", "stuck": "stuck"}


class Generator:
    def __init__(self, seed):
        self.state = seed

    def below(self, most):
        self.state = (self.state * 1103515245 + 12345) % 2**31
        return self.state // 65536 % most


def row(draw, priority):
    """A row of a policy; a row that drops draws no port."""
    src = f"10.{draw.below(4)}.{draw.below(256)}.0/24"
    dst = f"10.{draw.below(4)}.0.0/16"
    port = draw.below(1024)
    action = "drop" if draw.below(4) == 0 else f"out:{draw.below(8)}"
    return [priority, src, dst, "any", port, "tcp", action]


def group(draw):
    """A packet at a switch, which goes its way; then what was sent is delivered."""
    switch = f"n{draw.below(8)}"
    ends = [f"10.{draw.below(4)}.{draw.below(256)}.{draw.below(256)}" for _ in range(2)]
    ports = [1024 + draw.below(30000), draw.below(1024)]
    return [["packet", switch, *ends, *ports, "tcp"], ["drain"], ["flush"]]


def case(number):
    """The policies and the schedule of a load case."""
    draw = Generator(number)
    policies = [[row(draw, place) for place in range(1, number + 1)] for _ in range(2)]
    groups = [group(draw) for _ in range(4 * number)]
    middle = [["update", 2], ["flush"], ["linkdown", "n0", "n1"], ["flush"]]
    early, late = groups[: 2 * number], groups[2 * number :]
    return policies, [*sum(early, []), *middle, *sum(late, [])]


def world_of(number):
    policies, schedule = case(number)
    with tempfile.TemporaryDirectory() as folder:
        paths = [Path(folder, f"policy{place}.csv") for place in (1, 2)]
        for path, rows in zip(paths, policies):
            with open(path, "w", newline="") as file:
                csv.writer(file).writerows([HEADING, *rows])
        world = slow_replay.World(NET, paths)
    world.play([[str(field) for field in event] for event in schedule])
    return world


def counts(world):
    """The titles with their numbers."""
    lines = world.journal.lines
    kinds = Counter(line.split(" ", 3)[2] for line in lines if line.startswith("  "))
    found = {
        title: sum(kinds[kind] for kind in words.split("|")) for title, words in TITLES.items()
    }
    ended = sum(found[title] for title in ("delivered", "dropped", "lost", "stuck"))
    found["travelling"] = kinds["entered"] - ended
    found["cached"] = sum(bool(re.match("  decided .* cache [0-9]+$", line)) for line in lines)
    found["messages"] = len(world.journal.messages)
    found |= {"current": world.controller.current, "retired": world.controller.retired}
    return found


def main():
    if len(sys.argv) != 2 or not re.fullmatch("[1-9][0-9]{0,3}", sys.argv[1]):
        sys.exit(__doc__)
    try:
        world = world_of(int(sys.argv[1]))
    except slow_replay.Refused:
        sys.exit(3)
    print("".join(f"{title} {count}\n" for title, count in counts(world).items()), end="")


if __name__ == "__main__":
    main()
