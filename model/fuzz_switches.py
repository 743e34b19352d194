#!/usr/bin/env python3
"""Plays random schedules by `model/slow_replay.py` and by networks of Open vSwitch.

usage: model/fuzz_switches.py COUNT [START]

The cases are those of `model/fuzz.py` without rows that make links or switches fail, and with more
drains and flushes; half of the later policies are changes. Each is played by
`desk/openvswitch --network`, whose lines are shown if anything differs. At the end it prints
how many packets were compared, and why others weren't. It ends with 1 if there was a difference.
"""
import re
import subprocess
import sys
import tempfile
from collections import Counter
from pathlib import Path

import fuzz

SCRIPT = Path(__file__).resolve().parent.parent / "desk/openvswitch"
FAILURES = ("linkdown", "linkup", "crash", "restart", "confirm")
KINDS = {kind: share for kind, share in fuzz.KINDS.items() if kind not in FAILURES}
KINDS |= {"drain": 20, "flush": 8}
NAMES = {"n.toml": "net.toml", "p1.csv": "policy.csv", "s.csv": "schedule.csv"}
NAMES |= {f"p{file}.csv": f"policy{file}.csv" for file in range(2, fuzz.POLICIES + 1)}


def play(seed):
    """The status, and what was printed of a case."""
    with tempfile.TemporaryDirectory() as folder:
        fuzz.write_case(seed, folder, KINDS, change_share=0.5)
        for given, wanted in NAMES.items():
            Path(folder, given).rename(Path(folder, wanted))
        command = [sys.executable, str(SCRIPT), "--network", folder]
        done = subprocess.run(command, capture_output=True, text=True)
    return done.returncode, done.stdout + done.stderr


def main():
    if len(sys.argv) not in (2, 3) or not all(arg.isdecimal() for arg in sys.argv[1:]):
        sys.exit(__doc__)
    count, start = int(sys.argv[1]), int(sys.argv[2]) if len(sys.argv) == 3 else 0
    counts, wrong = Counter(), 0
    for seed in range(start, start + count):
        status, told = play(seed)
        if status:
            wrong += 1
            print(f"seed {seed}: {told}", end="", flush=True)
        counts["compared"] += sum(map(int, re.findall(r"; (\d+) packets", told)))
        for number, why in re.findall(r"(\d+) ([a-z ]+)", told.partition("not compared: ")[2]):
            counts[why.strip()] += int(number)
    packets = ", ".join(f"{number} {why}" for why, number in counts.items())
    print(f"{count} cases, {wrong} with differences; of the packets {packets}")
    sys.exit(wrong > 0)


main()
