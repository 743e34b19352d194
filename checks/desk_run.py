#!/usr/bin/env python3
"""Checks who answers `desk/run`, and what it says of it: `checks/desk_run.py [BIN]`.

The first answer, what is built and kept, all commands, recovery, clocks. Cases are as in
`checks/run.py`.
"""
import os
import pty
import re
import subprocess
import sys

import run
from run import CASES, RUN, case, text

CASES.clear()


@case
def the_first_answer_is_the_models(desk):
    """Within three seconds of the processor, and it says who gave it."""
    desk.add_rt()
    own, before = desk.copy("campus", "own"), os.times()
    out, errors, status = desk.run("own")
    assert (out, status) == (text("campus/journal.txt"), 0)
    assert "uses the slow model, of which nothing is proved; --build builds" in errors
    after = os.times()
    assert sum(after[2:4]) - sum(before[2:4]) < 3
    assert (own / "journal.txt").read_text() == out


@case
def an_example_is_built(desk):
    desk.add_rt()
    out, errors, _ = desk.run("campus")
    assert out == text("campus/journal.txt") and "builds the program without proof" in errors


@case
def what_was_built_is_kept(desk):
    desk.add_rt()
    own = desk.copy("campus", "own")
    desk.run("own", "replay", "compile", "--build")
    (desk.bin / "rt").unlink()
    for flags in ([], ["--build"]):
        _, errors, status = desk.run("own", "compile", *flags)
        assert status == 0 and f"is kept in {desk.folder / 'kept/difane'}" in errors, errors
        assert "by a program that was built without proof, in an earlier run" in errors
    (own / "policy.csv").write_text(text("campus/policy.csv").replace("drop", "out:1"))
    _, errors, status = desk.run("own", "--build")
    assert status == 2 and "rt isn't on the path" in errors


@case
def an_rt_of_another_kit_builds_nothing(desk):
    (desk.bin / "rt").write_text("#!/bin/sh\necho kit logic 0123456789abcdef\n")
    (desk.bin / "rt").chmod(0o755)
    _, errors, status = desk.run("campus")
    assert status == 2 and "rt is of another kit" in errors and "README.md, line" in errors


@case
def all_commands_are_by_program_or_model(desk):
    own = desk.copy("day", "own")
    commands = ["replay", "compile", "show", "b", "flows", "rebalance", "audit"]
    (own / "journal.txt").write_text(text("day/journal.txt"))
    found = []
    for who in (["--program", desk.program], ["--model"]):
        out, errors, status = desk.run("own", *commands, *who)
        assert (out, status) == ("== own/audit\nyes\n", 0), errors
        found.append([path.read_text() for path in sorted(own.glob("*.txt"))])
    assert found[0] == found[1] and len(found[0]) == 5
    assert desk.by_program("load", "2")[0] == desk.run("load", "2", "--model")[0]


@case
def the_audit_says_why(desk):
    own = desk.copy("campus", "own")
    (own / "journal.txt").write_text(text("campus/journal.txt").replace("rule 300", "rule 200"))
    _, errors, status = desk.run("own", "audit", "--model")
    assert status == 1 and "that the packet matches is 300 out:2" in errors, errors


@case
def recovery_is_told(desk):
    own = desk.copy("bad_night", "own")
    (own / "recovered.csv").unlink()
    out, errors, status = desk.run("own", "--recover", "--model")
    assert status == 0 and errors.count("wrote") == 2, errors
    for name in ("recovered.csv", "recovered.txt"):
        assert (own / name).read_text() == text("bad_night", name)
    assert "lost before the recovery rows: 3 messages" in out
    assert "version 2 is current, the newest; those up to 1 are retired" in out
    assert "links that are down: b d" in out and out.endswith("quiet: yes\n")
    assert len([line for line in out.splitlines() if line.endswith("2  v2                0")]) == 4


@case
def pipes_are_no_files(desk):
    for name in ("policy.csv", "policy2.csv", "schedule.csv", "net.toml"):
        own = desk.copy("campus", name + ".d")
        (own / name).unlink(missing_ok=True)
        os.mkfifo(own / name)
        _, errors, status = desk.run(str(own), "--model")
        assert status == 2 and f"{own / name} is not a file" in errors, errors


@case
def updates_without_effect_are_told(desk):
    own = desk.copy("update", "own")
    rows = text("update/schedule.csv").splitlines()
    (own / "schedule.csv").write_text("\n".join([*rows[:2], "update,2", "drain", ""]))
    _, errors, _ = desk.run("own", "--model")
    assert "row 2: there is no row flush after this update" in errors, errors


@case
def a_clock_counts_on_a_terminal(desk):
    slow = desk.folder / "slow"
    slow.write_text("#!/bin/sh\n/bin/sleep 2.5\n")
    slow.chmod(0o755)
    seen, end = pty.openpty()
    subprocess.run([sys.executable, str(RUN), "campus", "--program", str(slow)], stderr=end)
    found = os.read(seen, 1 << 16).decode()
    assert re.search("\rdesk/run: the program works: [12] s", found), found


run.main(__doc__)
