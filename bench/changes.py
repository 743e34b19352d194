#!/usr/bin/env python3
"""Times updates by changes of policies.

usage: bench/changes.py BIN

BIN is the proved program (`rt run` leaves it in crates/difane/out/difane). On one switch a policy
of 2,000 rows is updated 63 times, with a flush after each update: by changes that replace one row by
another, or by whole files of the same rows. Then 100,000 updates are refused: for a row that
doesn't exist, or for too many versions that aren't retired. Last, each of 62 changes is refused for
too many leaves after each of 63 updates. Each case runs in a folder of its own, with its output sent to a
file. Prints a line for each case: seconds, peak memory in MiB, items and bytes of the journal written.
With no event it is the time of reading the files. It needs GNU time.
"""
import os
import random
import subprocess
import sys
import tempfile
import time

from plans import in_512_parts, network, subnets

ROWS = 2000
VERSIONS = 63
HEADING = "op,priority,src,dst,sport,dport,proto,action\n"


def change(removed, added):
    """The text of a change that removes the rows of these priorities and adds these rows."""
    lines = [*(f"remove,{priority}\n" for priority in removed), *(f"add,{row}\n" for row in added)]
    return HEADING + "".join(lines)


def schedule(rows):
    return "event,arguments\n" + "".join(row + "\n" for row in rows)


def other_row(priority):
    return f"{priority},10.{priority % 4}.77.0/24,10.1.0.0/16,any,any,udp,out:0"


def changes(policy, count):
    """Changes of one row each, and the whole files that they make of the policy in turn."""
    heading, *rows = policy.splitlines()
    edits, wholes = [], []
    for priority in range(1, count + 1):
        row = other_row(priority)
        rows = [kept for kept in rows if not kept.startswith(f"{priority},")] + [row]
        edits.append(change([priority], [row]))
        wholes.append("".join(line + "\n" for line in [heading, *rows]))
    return edits, wholes


def refused_behind_each():
    """63 updates by a change of an action, after each of which 62 changes would have one leaf too
    many, and a flush."""
    policy = in_512_parts()
    first = policy.splitlines()[1].split(",", 1)[1]
    drop = change([1], [f"1,{first.rsplit(',', 1)[0]},drop"])
    wide = [change([], [f"{5000 + k},any,0.0.0.0/10,any,{k},tcp,out:0"]) for k in range(1, 63)]
    turn = ["update,2", *(f"update,{k}" for k in range(3, 65)), "flush"]
    return [policy, drop, *wide], turn * VERSIONS


def run(program, case, files, events, net):
    with tempfile.TemporaryDirectory() as folder:
        names = [f"p{k}.csv" for k in range(len(files))]
        for name, text in zip(["s.csv", "n.toml", *names], [schedule(events), net, *files]):
            with open(os.path.join(folder, name), "w") as file:
                file.write(text)
        # GNU time, a small process, measures the memory: what a child of this script inherits would
        # count as its own.
        args = [program, "replay", "s.csv", *names, "--net", "n.toml"]
        with open(os.path.join(folder, "out"), "wb") as out:
            begun = time.monotonic()
            timed = ["/usr/bin/time", "-f", "%M", "-o", "memory", *args]
            status = subprocess.run(timed, cwd=folder, stdout=out).returncode
            seconds = time.monotonic() - begun
        if status != 0:
            sys.exit(f"status {status}")
        with open(os.path.join(folder, "memory")) as memory:
            mebibytes = int(memory.read()) / 1024
        with open(os.path.join(folder, "out"), "rb") as out:
            text = out.read()
    wrote = f"{text.count(bytes([10]))} items, {len(text)} bytes written"
    print(f"{case}: {seconds:.3f} s, {mebibytes:.1f} MiB, {wrote}", flush=True)


def main():
    if len(sys.argv) != 2:
        sys.exit(__doc__)
    program = os.path.abspath(sys.argv[1])
    policy, net = subnets(random.Random(ROWS), ROWS), network(32, 0, 1)
    edits, wholes = changes(policy, VERSIONS)
    turns = [row for k in range(2, VERSIONS + 2) for row in (f"update,{k}", "flush")]
    for case, files in (("changes", edits), ("whole files", wholes)):
        run(program, f"63 {case}, no event", [policy, *files], [], net)
        run(program, f"63 updates by {case}", [policy, *files], turns, net)
    absent = change([ROWS + 1], [])
    run(program, "100000 updates, a row is absent", [policy, absent], ["update,2"] * 100_000, net)
    same = change([1], [other_row(1)])
    run(program, "100000 updates, 7 are live", [policy, same], ["update,2"] * 100_000, net)
    files, events = refused_behind_each()
    run(program, "63 updates, 62 refused after each", files, events, network(3, 0, 64))


main()
