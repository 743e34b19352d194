#!/usr/bin/env python3
"""Lets each allocation of a command fail in turn: `checks/fail_alloc.py BIN [ARG..]`.

Without arguments the commands are a load case, and a replay, its flows, its rebalance, an audit of
its journal, a compile and a show of the day of a campus, examples/day. The N-th call for memory
fails, first only this one and then all after it too, for N from 1 to the calls of a run in which none fails.
Each run must end with status 0 and the whole output, or with status 7 and a part of it from the
front, not all; and its line of errors must be that of the status, or a part of it. Else this ends
with 1. It needs a C compiler and Linux.
"""
import os
import subprocess
import sys
import tempfile
from collections import Counter
from pathlib import Path

HOME = Path(__file__).resolve().parent.parent
COMMANDS = (
    "replay schedule.csv policy.csv policy2.csv --net net.toml",
    "replay schedule.csv policy.csv policy2.csv --net net.toml --quiet",
    "flows schedule.csv policy.csv policy2.csv --net net.toml",
    "rebalance schedule.csv policy.csv policy2.csv --net net.toml",
    "audit journal.txt policy.csv policy2.csv",
    "compile policy.csv --net net.toml",
    "show policy.csv b --net net.toml",
    "load 2",
)
LINES = {0: b"", 7: b"difane: no memory\n"}
MODES = (("one alone", {}), ("it and all after it", {"FAIL_REST": "1"}))


def build(folder):
    library = Path(folder) / "fail_alloc.so"
    source = HOME / "checks/fail_alloc.c"
    subprocess.run(["cc", "-shared", "-fPIC", "-o", library, source, "-ldl"], check=True)
    return {"LD_PRELOAD": str(library)}


def play(args, folder, **settings):
    """A run's status, its output and its line of errors."""
    surroundings = {**os.environ, **settings}
    done = subprocess.run(args, capture_output=True, cwd=folder, env=surroundings)
    return done.returncode, done.stdout, done.stderr


def is_right(ended, whole):
    """Whether a run ended whole, or out of memory with a part of the output, not all."""
    status, out, line = ended
    if status == 0:
        return out == whole and line == LINES[0]
    is_part = out != whole and whole.startswith(out)
    return status == 7 and is_part and LINES[7].startswith(line)


def fail_each(args, folder, where, preload):
    """Lets each allocation of this command fail in turn, and prints how the runs ended."""
    counted = Path(folder) / "calls"
    status, whole, _ = play(args, where, COUNT_ALLOC=str(counted), **preload)
    if status != 0:
        sys.exit(f"without a fault the status is {status}")
    calls = int(counted.read_text())
    print(" ".join(args[1:]), f"({calls} allocations, {len(whole)} bytes)")
    for name, more in MODES:
        ends, parts = Counter(), 0
        for number in range(1, calls + 1):
            ended = play(args, where, FAIL_ALLOC=str(number), **more, **preload)
            if not is_right(ended, whole):
                sys.exit(f"allocation {number} failing ({name}): {ended}")
            ends[ended[0]] += 1
            parts += ended[0] == 7 and ended[1] != b""
        print(f"    {name}: status 7 in {ends[7]}, {parts} with a part; status 0 in {ends[0]}")


def main():
    if len(sys.argv) < 2:
        sys.exit(__doc__)
    program = str(Path(sys.argv[1]).resolve())
    with tempfile.TemporaryDirectory() as folder:
        preload = build(folder)
        if len(sys.argv) > 2:
            fail_each([program, *sys.argv[2:]], folder, None, preload)
        else:
            for command in COMMANDS:
                fail_each([program, *command.split()], folder, HOME / "examples/day", preload)


if __name__ == "__main__":
    main()
