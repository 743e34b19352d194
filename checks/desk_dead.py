#!/usr/bin/env python3
"""Checks what desk/ask prints about dead rows: `checks/desk_dead.py`.

Of 300 policies over few values of each field the dead rows are those that no header reaches, by
looking at every header. What covers a row does, and nothing less; each other row's header is its
own. 2,000 rows are answered within 10 seconds of the processor.
"""
import random
import sys
import time
from itertools import product
from pathlib import Path

from desk_headers import blocks_of, has, is_in, numbers_of

HOME = Path(__file__).resolve().parent.parent
POLICIES, SECONDS = 300, 10

sys.dont_write_bytecode = True
sys.path[:0] = [str(HOME / "desk")]

from parts import dead
from parts.boxes import Ranked
from parts.policies import Rule

ENDS = [["any", "10.0.0.0/30", "10.0.0.0/31", "10.0.0.2/31", *(f"10.0.0.{k}" for k in range(4))],
        ["any", "10.0.0.0/31", "10.0.0.0", "10.0.0.1"]]
PORTS = [["any"] * 4 + ["0", "1-65535", "2-3", "0-2"], ["any", "0-1", "1-3", "0", "3", "4-65535"]]
PROTOCOLS = ["any", "any", "tcp", "udp"]
VALUES = [  # of each field one of each kind that its texts can tell apart
    [10 << 24 | last for last in range(5)], [10 << 24 | last for last in range(3)],
    range(5), range(5), [6, 17, 1],
]


def random_rules(rng, count):
    """Rows over few values, whose priorities are in no order."""
    rows = []
    for priority in rng.sample(range(1, 500), count):
        fields = [rng.choice(texts) for texts in (*ENDS, *PORTS, PROTOCOLS)]
        rows.append([str(priority), *fields, rng.choice(["drop", "out:1", "out:2"])])
    return [Rule(row[0], "policy.csv", line, row) for line, row in enumerate(rows, 2)]


def headers_of(fields):
    """All headers of VALUES that the row has."""
    pairs = zip(VALUES, blocks_of(fields))
    return {*product(*([one for one in values if is_in(one, words)] for values, words in pairs))}


def dead_faults():
    rng = random.Random(75)
    for number in range(POLICIES):
        rules = random_rules(rng, rng.choice([4, 12, 24, 60]))
        yield from (f"policy {number}: {why}" for why in policy_faults(rules))


def policy_faults(rules):
    """What is told of these rows, against every header."""
    falling = sorted(rules, key=lambda rule: -int(rule.priority))
    holds = {rule.priority: headers_of(rule.fields) for rule in falling}
    action = {rule.priority: rule.fields[-1] for rule in rules}
    said, earlier, gone = dead.reached(Ranked(rules)), set(), []
    for rule in falling:
        gone += [rule.priority] * (holds[rule.priority] <= earlier)
        earlier |= holds[rule.priority]
    if [row["rule"] for row in said["dead"]] != gone:
        yield f"{gone} are dead, and not {said['dead']}"
    for row in said["dead"]:
        by = row["covered by"]
        if not covered(holds, row["rule"], by) or any(int(one) < int(row["rule"]) for one in by):
            yield f"{by} don't cover {row['rule']}"
        if any(covered(holds, row["rule"], [one for one in by if one != other]) for other in by):
            yield f"fewer than {by} cover {row['rule']}"
        if row["of another action"] != [k for k in by if action[k] != action[row["rule"]]]:
            yield f"the actions of {by} are told wrongly"
    for row in said["live"]:
        first = next(one for one in falling if has(one.fields, numbers_of(row["header"])))
        if first.priority != row["rule"]:
            yield f"{row['header']} reaches {first.priority}, and not {row['rule']}"
    free = said["default"]
    if (free is None) != (len(earlier) == len([*product(*VALUES)])):
        yield f"the default is told to be reached by {free}"
    if free and any(has(rule.fields, numbers_of(free)) for rule in rules):
        yield f"{free} doesn't reach the default"


def covered(holds, row, by):
    return holds[row] <= set().union(*(holds[one] for one in by))


def large_policies():
    """Lists of 2,000 rows: filters as of ClassBench, and cells of a grid that cover blocks of it."""
    rng = random.Random(5)
    rows = [
        [f"10.{rng.randrange(8)}.{rng.randrange(64)}.0/{rng.choice([14, 20, 22, 24])}",
         f"10.{rng.randrange(8)}.{rng.randrange(64)}.0/{rng.choice([14, 20, 22, 24])}",
         rng.choice(["any", "any", "1024-65535"]), rng.choice(["any", "80", "443", "22", "0-1023"]),
         rng.choice(["any", "tcp", "udp"])]
        for _ in range(2000)
    ]
    yield "filters", rows
    cells = [(src, dst) for src in range(32) for dst in range(32)]
    rng.shuffle(cells)
    rows = [[f"10.{src}.0.0/16", f"11.{dst}.0.0/16", "any", "any", "tcp"] for src, dst in cells]
    for _ in range(976):
        src, dst = rng.choice([11, 12, 13, 14, 16]), rng.choice([11, 12, 13, 14, 16])
        rows.append([f"10.{rng.randrange(32)}.0.0/{src}", f"11.{rng.randrange(32)}.0.0/{dst}",
                     "any", rng.choice(["any", "80"]), "tcp"])
    yield "grid", rows


def time_faults():
    for name, rows in large_policies():
        rules = [Rule(str(9000 - at), "policy.csv", at + 2, [str(9000 - at), *row, "drop"])
                 for at, row in enumerate(rows)]
        before = time.process_time()
        found = dead.reached(Ranked(rules))
        spent = time.process_time() - before
        print(f"  {name}: {len(rules)} rows, {len(found['dead'])} dead, {spent:.1f} s")
        if spent > SECONDS:
            yield f"{name}: {spent:.1f} s"


def main():
    faults = [*dead_faults(), *time_faults()]
    print("\n".join(faults[:20]) or "dead rows: as every header says")
    sys.exit(bool(faults))


if __name__ == "__main__":
    main()
