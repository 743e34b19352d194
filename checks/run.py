#!/usr/bin/env python3
"""Checks `desk/run`: `checks/run.py [BIN]`.

The program is BIN where it is given, and otherwise `checks/stand_in.py`, which says what the slow
model says; it replaces `rt` too, so what the kit prints is not checked here. Each case is a
function; those that failed are told, and it ends with 1.
"""
import os
import shutil
import signal
import subprocess
import sys
import tempfile
import time
from pathlib import Path

HOME = Path(__file__).resolve().parent.parent
EXAMPLES = HOME / "crates/examples/data"
COPY = tempfile.TemporaryDirectory()  # of the repository, without a program that was built there
LEFT_OUT = shutil.ignore_patterns("out", ".git", "wip")
RUN = Path(shutil.copytree(HOME, Path(COPY.name, "copy"), ignore=LEFT_OUT)) / "desk/run"
STAND_IN = HOME / "checks/stand_in.py"
MANY = 9000  # packets, whose journal on one switch is longer than 1 MiB


class Desk:
    """A folder with a copy of an example, and a folder of commands in which `rt` may be."""

    def __init__(self, folder, program):
        self.folder, self.program = folder, str(Path(program).resolve())
        self.bin = folder / "bin"
        self.bin.mkdir()
        (self.bin / "python3").symlink_to(sys.executable)

    def add_rt(self):
        (self.bin / "rt").symlink_to(STAND_IN)

    def copy(self, example, name):
        """A folder of one's own with the files of an example, but without its answers."""
        ignore = shutil.ignore_patterns("*.txt", "*.md")
        shutil.copytree(EXAMPLES / example, self.folder / name, ignore=ignore)
        return self.folder / name

    def run(self, *args, cwd=None):
        """The output, the lines of standard error and the status of desk/run."""
        places = {"PATH": str(self.bin), "XDG_CACHE_HOME": str(self.folder / "kept")}
        environment = {**os.environ, **places}
        command = [sys.executable, str(RUN), *args]
        done = subprocess.run(
            command, cwd=cwd or self.folder, env=environment, capture_output=True, text=True
        )
        return done.stdout, done.stderr, done.returncode

    def by_program(self, *args, **how):
        return self.run("--program", self.program, *args, **how)


CASES = []


def case(function):
    """Notes a function as a case."""
    CASES.append(function)
    return function


def text(*parts):
    return EXAMPLES.joinpath(*parts).read_text()


@case
def an_example_is_printed(desk):
    out, errors, status = desk.by_program("campus")
    assert (out, status) == (text("campus/journal.txt"), 0)
    assert errors == f"desk/run: uses the program {desk.program}\n"


@case
def quiet_passes_through(desk):
    out, _, status = desk.by_program("converged", "--quiet")
    assert (out, status) == (text("converged/journal.txt"), 0)


@case
def load_passes_through(desk):
    out, _, status = desk.by_program("load", "3")
    assert status == 0 and out
    _, errors, status = desk.by_program("load", "0")
    assert status == 2 and 'the number is "0": it isn\'t from 1 to 1000' in errors


@case
def an_own_folder_beats_an_example(desk):
    own = desk.copy("first", "update")
    out, errors, _ = desk.by_program("update")
    assert out == text("first/journal.txt") == (own / "journal.txt").read_text()
    assert "update is the folder here" in errors


@case
def a_point_is_the_current_folder(desk):
    own = desk.copy("first", "own")
    out, _, _ = desk.by_program(".", cwd=own)
    assert out == text("first/journal.txt") == (own / "journal.txt").read_text()


@case
def several_questions_are_written(desk):
    own, other = desk.copy("campus", "own"), desk.copy("caches", "other")
    words = ("own", "other", "replay", "compile", "show", "a")
    out, errors, status = desk.by_program(*words)
    assert (out, status) == ("", 0) and errors.count("wrote") == 6
    for folder, example in ((own, "campus"), (other, "caches")):
        for name in ("journal.txt", "show-a.txt"):
            assert (folder / name).read_text() == text(example, name)
    assert (own / "plan.txt").read_text() == text("campus/compile.txt")


@case
def examples_stay_as_they_are(desk):
    before = sorted(EXAMPLES.glob("*/*"))
    out, _, status = desk.by_program("campus", "caches", "compile", "show", "b")
    assert status == 0 and sorted(EXAMPLES.glob("*/*")) == before
    assert f"== campus/plan.txt\n{text('campus/compile.txt')}== campus/show-b.txt\n" in out


@case
def one_build_serves_all(desk):
    desk.add_rt()
    own, other = desk.copy("campus", "a/own"), desk.copy("crash", "b/own")
    _, errors, status = desk.run("a/own", "b/own", "--build")
    assert status == 0 and errors.count("builds the program") == 1
    assert (own / "journal.txt").read_text() == text("campus/journal.txt")
    assert (other / "journal.txt").read_text() == text("crash/journal.txt")


@case
def one_question_is_built(desk):
    desk.add_rt()
    out, _, status = desk.run("campus", "show", "a", "--build")
    assert (out, status) == (text("campus/show-a.txt"), 0)


@case
def mistakes_are_explained(desk):
    desk.add_rt()
    own, good = desk.copy("campus", "own"), desk.copy("campus", "good")
    (own / "policy.csv").write_text(text("campus/policy.csv").replace("drop", "DROP"))
    for words in (("own",), ("own", "--build"), ("own", "good", "--build"), ("own", "good")):
        _, errors, status = desk.run(*words)
        assert status == 3 and "difane: input policy.csv code 9 row" in errors, errors
        assert "it has capitals, and only lower case is read: write drop" in errors
        assert ("desk/run: own: replay ended with status 3" in errors) == ("good" in words)
    assert (good / "journal.txt").read_text() == text("campus/journal.txt")


@case
def changes_are_played(desk):
    own = desk.copy("amend", "own")
    _, _, status = desk.by_program("own")
    assert status == 0 and (own / "journal.txt").read_text() == text("amend/journal.txt")
    shutil.copy(own / "policy2.csv", own / "policy.csv")
    _, errors, status = desk.by_program("own")
    assert status == 3 and "code 23 of a change" in errors, errors


@case
def a_mistake_needs_no_build(desk):
    own = desk.copy("campus", "own")
    (own / "net.toml").write_text('[[switch]]\nname = "a"\nport = [1]\nports = [\n')
    _, errors, status = desk.run("own", "--build")
    assert status == 2 and "rt isn't on the path" in errors
    _, errors, status = desk.run("own")
    assert status == 3 and "difane: input net.toml code 1 row 0" in errors and "TOML: " in errors


@case
def a_long_journal_is_the_models(desk):
    own = desk.folder / "own"
    own.mkdir()
    (own / "policy.csv").write_text(text("first/policy.csv"))
    row = "packet,s0,10.1.1.1,9.9.9.9,50000,80,tcp\n"
    (own / "schedule.csv").write_text("event,arguments\n" + row * MANY)
    _, errors, status = desk.run("own")
    assert status == 0 and "by the slow model" in errors
    found = (own / "journal.txt").read_text()
    assert len(found) > 1 << 20 and found.count("\n  entered ") == MANY
    desk.add_rt()
    _, errors, status = desk.run("own", "--build")
    assert status == 0 and "the quick runner prints no answer" in errors, errors
    assert (own / "journal.txt").read_text() == found


@case
def the_model_answers_without_rt(desk):
    out, errors, status = desk.run("campus", "--model")
    assert (out, status) == (text("campus/journal.txt"), 0) and "slow model" in errors


@case
def cautions_stand_in_front(desk):
    own = desk.copy("campus", "own")
    with open(own / "net.toml", "a") as file:
        file.write('[[links]]\nends = ["a", "d"]\n')
    rows = text("campus/schedule.csv").replace("drain\n", "")
    (own / "schedule.csv").write_text(rows.replace("hop,", "deliver,"))
    _, errors, _ = desk.by_program("own")
    assert "the key links is unknown" in errors and "no row drain" in errors


@case
def one_example_has_a_caution(desk):
    """In `caches` the last packets are decided by a cache, and travel no more."""
    for folder in sorted(EXAMPLES.glob("*/schedule.csv")):
        name = folder.parent.name
        if name != "codes":
            _, errors, status = desk.by_program(name)
            assert status == 0 and ("no row drain" in errors) == (name == "caches"), errors
            assert ("is refused, code 24: " in errors) == (name == "amend"), errors
            assert errors.count("\n") == 1 + (name in ("amend", "caches")), errors


@case
def wrong_words_are_one_line(desk):
    for words in (
        ["nowhere"], ["campus", "show"], ["compile"], ["--quite"], ["campus", "replay", "crash"],
        ["load"], ["load", "5", "compile"], ["campus", "compile", "--quiet"],
        ["campus", "--program"], ["leaves"], ["campus", "--program", "nowhere"],
        ["campus", "show", "--model"], ["campus", "--model", "--program", "x"], ["a" * 999],
        ["campus", "compile", "--recover"], ["campus", "--model", "--build"], ["campus", "frob"],
    ):
        out, errors, status = desk.run(*words)
        assert out == "" and errors.count("\n") == 1 and status == 2, errors


@case
def an_interrupt_is_one_line(desk):
    slow, begun = desk.folder / "slow", desk.folder / "begun"
    slow.write_text(f"#!/bin/sh\ntouch '{begun}'\nexec /bin/sleep 60\n")
    slow.chmod(0o755)
    command = [sys.executable, str(RUN), "campus", "--program", str(slow)]
    with subprocess.Popen(command, stderr=subprocess.PIPE, text=True) as child:
        while not begun.exists() and child.poll() is None:
            time.sleep(0.1)
        time.sleep(0.2)
        child.send_signal(signal.SIGINT)
        errors = child.communicate()[1]
    assert errors.endswith("\ndesk/run: interrupted\n") and child.returncode == 130


def is_right(one, program):
    """Whether a case holds; where it doesn't, that is told."""
    with tempfile.TemporaryDirectory() as folder:
        try:
            one(Desk(Path(folder), program))
        except AssertionError as error:
            line = error.__traceback__.tb_next.tb_lineno
            print(f"{one.__name__} fails in line {line}: {error}")
            return False
    return True


def main(usage=__doc__):
    if len(sys.argv) > 2 or sys.argv[1:] in (["-h"], ["--help"]):
        sys.exit(usage)
    program = sys.argv[1] if sys.argv[1:] else STAND_IN
    wrong = sum(not is_right(one, program) for one in CASES)
    print(f"{len(CASES)} cases, {wrong} wrong; the program is {program}")
    sys.exit(wrong > 0)


if __name__ == "__main__":
    main()
