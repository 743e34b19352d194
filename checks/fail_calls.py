#!/usr/bin/env python3
"""Lets each read and each write of a command fail in turn: `checks/fail_calls.py BIN`.

The commands are those of checks/fail_alloc.py. `strace` makes the N-th read or write of the program
return an error, for each N and each of four errors. After EINTR the call must be made again: the
status is 0 and the output whole. After another error of a write the status is 5, and of a read 4,
or 7 if it was ENOMEM. What was written by then is a part of the whole, from the front, and nothing
if a read failed. The line of errors must be that of the status. Else this ends with 1. It needs
strace and Linux.
"""
import re
import shutil
import subprocess
import sys
import tempfile
from collections import Counter
from pathlib import Path

from fail_alloc import COMMANDS, HOME

ERRORS = ("EIO", "ENOMEM", "EAGAIN", "EINTR")
STATUSES = {"read": 4, "write": 5}
NO_MEMORY = 7
LINES = {4: b"difane: read fault\n", 5: b"difane: write fault\n", NO_MEMORY: b"difane: no memory\n"}
LOADS = r"\\177ELF"  # the loader reads a library, before the program begins


def play(command, log, *flags):
    """A run's status, output and line of errors; strace's lines are in the log."""
    words = ["strace", "-o", log, *flags, *command]
    done = subprocess.run(words, capture_output=True, cwd=HOME / "examples/day")
    return done.returncode, done.stdout, done.stderr


def calls_of(command, log, call):
    """The first and the last call of the program itself, from 1, and what the run ended with."""
    ended = play(command, log, "-e", f"trace={call}")
    made = re.findall(rf"^{call}\(.*", log.read_text(), re.M)
    loads = sum(bool(re.search(LOADS, line)) for line in made)
    return loads + 1, len(made), ended


def is_right(ended, whole, call, error):
    status, out, line = ended
    if error == "EINTR":
        return ended == whole
    is_part = out == b"" if call == "read" else whole[1].startswith(out) and out != whole[1]
    wanted = NO_MEMORY if (call, error) == ("read", "ENOMEM") else STATUSES[call]
    return status == wanted and is_part and line == LINES[status]


def fail_each(command, log, call):
    """Lets each call of this kind fail in turn, by each error; gives how many runs ended how."""
    first, last, whole = calls_of(command, log, call)
    if whole[0] != 0:
        sys.exit(f"without a fault the status is {whole[0]}: {' '.join(command)}")
    ends = Counter()
    for number in range(first, last + 1):
        for error in ERRORS:
            fault = f"inject={call}:error={error}:when={number}"
            ended = play(command, log, "-e", f"trace={call}", "-e", fault)
            if not is_right(ended, whole, call, error):
                sys.exit(f"{call} {number} by {error}: status {ended[0]}, {ended[2]}: {command}")
            ends[ended[0]] += 1
    return ends


def main():
    if len(sys.argv) != 2 or sys.argv[1] in ("-h", "--help"):
        sys.exit(__doc__)
    if shutil.which("strace") is None:
        sys.exit("checks/fail_calls.py: strace isn't installed")
    program = str(Path(sys.argv[1]).resolve())
    with tempfile.TemporaryDirectory() as folder:
        for command in COMMANDS:
            print(command)
            for call in STATUSES:
                ends = fail_each([program, *command.split()], Path(folder) / "log", call)
                told = ", ".join(f"status {status} in {times}" for status, times in sorted(ends.items()))
                print(f"    each {call}: {told or 'none'}")


main()
