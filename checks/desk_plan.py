#!/usr/bin/env python3
"""Checks the plans of the slow model: `checks/desk_plan.py [SEEDS]`.

- Of SEEDS random policies (60 where no number is given) the leaves are those that the definition
  gives step by step: of each half the rules that meet it, up to the first that covers it; the cut
  of least cost first.
- A plan of 2,000 rows is printed within five seconds of the processor.
"""
import random
import subprocess
import sys
import tempfile
from pathlib import Path
from resource import RUSAGE_CHILDREN, getrusage

HOME = Path(__file__).resolve().parent.parent
SEEDS, ROWS, SECONDS, MOST_LEAVES = 60, 2000, 5, 60
NET = "leaf_rules = 64\n" + "".join(
    f'[[switch]]\nname = "{name}"\nauthority = 8192\n' for name in "abcd"
)

sys.dont_write_bytecode = True
sys.path.insert(0, str(HOME / "model"))

import plan_model


def address(rng, nets):
    length = rng.choice([8, 16, 24, 28, 32])
    parts = [10, rng.randrange(nets), rng.randrange(256), rng.randrange(256)]
    number = int.from_bytes(bytes(parts), "big") >> (32 - length) << (32 - length)
    base = ".".join(map(str, number.to_bytes(4, "big")))
    return rng.choice(["any", *[f"{base}/{length}"] * 5])


def rows_of(rng, count, nets, ports):
    """Random rows of a policy."""
    return [
        (str(priority), address(rng, nets), address(rng, nets), "any", rng.choice(ports),
         rng.choice(["tcp", "udp", "any"]), "drop")
        for priority in range(count, 0, -1)
    ]


def narrowed(rules, region):
    """The rules that meet a region, up to the first that covers it."""
    kept = []
    for word, *rest in rules:
        both = plan_model.meet(word, region)
        if both is not None:
            kept.append((both, *rest))
        if both == region:
            break
    return kept


def leaves(rules, region, cap):
    """The leaves as they are defined."""
    if len(rules) <= cap:
        return [(region, rules)]
    cuts = []
    for bit in range(plan_model.BITS):
        if not region[1] >> bit & 1:
            sides = [narrowed(rules, half) for half in plan_model.halves(region, bit)]
            sizes = [len(side) for side in sides]
            cuts.append(((max(sizes), sum(sizes), bit), sides))
    (_, _, bit), sides = min(cuts, key=lambda cut: cut[0])
    parts = zip(sides, plan_model.halves(region, bit))
    return [leaf for side, half in parts for leaf in leaves(side, half, cap)]


def differences(seeds):
    for seed in range(seeds):
        rng = random.Random(seed)
        count, ports = rng.randrange(1, 25), ["any", "80", "443", "80-95", "1000-3000"]
        rules, _ = plan_model.rules_of(rows_of(rng, count, rng.choice([1, 4]), ports))
        cap = rng.choice([1, 2, 8]) if count < 6 else rng.choice([8, 16])
        found = plan_model.leaves(rules, (0, 0), cap, MOST_LEAVES + 1)
        if len(found) <= MOST_LEAVES and found != leaves(rules, (0, 0), cap):
            yield f"seed {seed}: the leaves are others than those of the definition"


def slowness():
    """What is wrong with the plan of many rows, if anything is."""
    rows = rows_of(random.Random(1), ROWS, 64, ["any", "80", "80-95"])
    with tempfile.TemporaryDirectory() as name:
        lines = ["priority,src,dst,sport,dport,proto,action", *map(",".join, rows)]
        Path(name, "policy.csv").write_text("".join(f"{line}\n" for line in lines))
        Path(name, "net.toml").write_text(NET)
        command = [sys.executable, HOME / "model/plan_model.py", "policy.csv", "--net", "net.toml"]
        before = getrusage(RUSAGE_CHILDREN).ru_utime
        done = subprocess.run(command, cwd=name, capture_output=True, text=True)
        took = getrusage(RUSAGE_CHILDREN).ru_utime - before
    if done.returncode or took > SECONDS:
        yield f"a plan of {ROWS} rows takes {took:.1f} s, status {done.returncode}"


def main():
    if len(sys.argv) > 2 or not all(word.isdecimal() for word in sys.argv[1:]):
        sys.exit(__doc__)
    found = [*differences(int(sys.argv[1]) if sys.argv[1:] else SEEDS), *slowness()]
    print("\n".join(found) if found else "the leaves are those of the definition")
    sys.exit(bool(found))


main()
