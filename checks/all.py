#!/usr/bin/env python3
"""Runs the checks that need no proof, and says which failed: `checks/all.py [BIN]`.

With BIN, the program as it was built (`rt run` leaves it in crates/difane/out/difane), it also lets
each allocation, read and write fail in turn, sends packets through Open vSwitch, opens pages in a
browser, asks the program for each mistake, and plays random schedules by the program and by the
model; these take minutes. What a check prints is shown if it failed. It ends with 1 if one did.
"""
import subprocess
import sys
from pathlib import Path

HOME = Path(__file__).resolve().parent.parent
ARGS = {"map.py": ["--check"], "desk.py": ["5"], "desk_layout.py": ["40"], "desk_trace.py": ["3"]}
HELPERS = {"crates.py", "browser.py", "desk_headers.py", "desk_kit.py", "journal_text.py",
           "list_reading.py", "stand_in.py", "view_parts.py"}
NO_CHECKS = {"all.py", "gate.py"} | HELPERS
DEAR = {"desk_out.py", "fail_alloc.py", "fail_calls.py", "view_check.py"}
SEEDS = 100


def commands(program):
    """Each check as its name and its arguments."""
    for path in sorted((HOME / "checks").glob("*.py")):
        if path.name not in NO_CHECKS | DEAR:
            yield f"checks/{path.name}", ARGS.get(path.name, [])
    if program:
        yield "checks/fail_alloc.py", [program]
        yield "checks/fail_calls.py", [program]
        yield "checks/desk_out.py", []
        yield "checks/desk_layout.py", []
        yield "checks/desk_trace.py", ["10", program]
        yield "checks/view_check.py", []
        yield "checks/mistakes.py", [program]
        yield "checks/run.py", [program]
        yield "checks/desk_run.py", [program]
        yield "model/fuzz.py", [program, str(SEEDS)]


def main():
    if len(sys.argv) > 2 or sys.argv[1:] in (["-h"], ["--help"]):
        sys.exit(__doc__)
    program = str(Path(sys.argv[1]).resolve()) if sys.argv[1:] else None
    failed = []
    for name, args in commands(program):
        command = [sys.executable, str(HOME / name), *args]
        done = subprocess.run(command, stdout=subprocess.PIPE, stderr=subprocess.STDOUT, text=True)
        print(f"{'failed' if done.returncode else 'passed'}  {name}", flush=True)
        if done.returncode:
            failed.append(name)
            print(done.stdout, flush=True)
    print(f"failed: {', '.join(failed)}" if failed else "all passed")
    sys.exit(bool(failed))


main()
