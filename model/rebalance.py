#!/usr/bin/env python3
"""The output of `rebalance`, computed independently from its definitions and slowly.

usage: model/rebalance.py SCHEDULE POLICY.. [--net NET]

The play is that of `model/slow_replay.py`; a partition's weight is how many lines of its journal
say that an authority of it decided by the version that is current at the end.
"""
import re
import sys
import tomllib

import plan_model
import slow_replay

DECIDED = re.compile(r"  decided \d+ v(\d+) rule .* authority .* part (\d+)")


def weights_of(lines, version, count):
    asked = [DECIDED.fullmatch(line) for line in lines]
    parts = [int(found[2]) for found in asked if found and int(found[1]) == version]
    return [parts.count(part) for part in range(count)]


def peak(weights, targets):
    """The greatest sum of the weights of the partitions that one switch is the first target of."""
    firsts = {switches[0] for switches in targets}
    return max(
        sum(weight for weight, switches in zip(weights, targets) if switches[0] == first)
        for first in firsts
    )


def bound(weights, rooms):
    usable = sum(room > 0 for room in rooms)
    return max(max(weights), -(-sum(weights) // usable)) if usable else 0


def spread(sizes, weights, rooms, backups):
    """By falling weight, each partition on the switches of least traffic that have room; None where
    one finds too few."""
    placed = {}
    for part in sorted(range(len(sizes)), key=lambda part: (-weights[part], part)):
        held = [sum(sizes[p] for p in placed if s in placed[p]) for s in range(len(rooms))]
        traffic = [sum(weights[p] for p in placed if s == placed[p][0]) for s in range(len(rooms))]
        fit = [s for s in range(len(rooms)) if held[s] + sizes[part] <= rooms[s]]
        placed[part] = sorted(fit, key=lambda s: (traffic[s], s))[: 1 + backups]
        if len(placed[part]) <= backups:
            return None
    return [placed[part] for part in range(len(sizes))]


def text_of(net, world):
    """What is printed of the world after a play."""
    version = world.controller.current
    plan = world.plans[version]
    weights = weights_of(world.journal.lines, version, len(plan.parts))
    rooms = [row.get("authority", 0) for row in net["switch"]]
    sizes = [len(rules) for _, rules in plan.parts]
    new = spread(sizes, weights, rooms, net.get("backups", 0))
    if new is None or peak(weights, new) >= peak(weights, plan.targets):
        new = plan.targets
    names = [row["name"] for row in net["switch"]]
    return (
        f"peak {peak(weights, plan.targets)} {peak(weights, new)}\nbound {bound(weights, rooms)}\n"
        + plan_model.text_by(names, plan.words, plan.parts, new, None)
    )


def main():
    args, net = sys.argv[1:], slow_replay.SOLO
    if "--net" in args:
        at = args.index("--net")
        with open(args[at + 1], "rb") as file:
            net = tomllib.loads(file.read().decode("utf-8-sig"))
        del args[at : at + 2]
    if len(args) < 2:
        sys.exit(__doc__)
    world = slow_replay.played(net, args[0], args[1:])
    sys.stdout.write(text_of(net, world))


if __name__ == "__main__":
    main()
