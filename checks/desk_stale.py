#!/usr/bin/env python3
"""Checks what desk/ask, desk/view and desk/draw refuse: `checks/desk_stale.py`.

- They say nothing about a journal that its inputs contradict, nor draw it; they report a newer
  input in the first line, view and draw on standard error.
- Wrong words and wrong policies are told in one line, with status 2.
"""
import json
import os
import shutil
import subprocess
import sys
import tempfile
from pathlib import Path

import desk

import refusals

HOME = Path(__file__).resolve().parent.parent
DESK, EXAMPLES = HOME / "desk", HOME / "examples"
HEADING = desk.POLICY_HEADING

EDITS = {  # a file of the example `day`, what is edited, and by what
    "another port": ("policy.csv", "any,443,tcp", "any,81,tcp"),
    "another action": ("policy.csv", "443,tcp,out:2", "443,tcp,drop"),
    "an earlier row": ("policy.csv", f"{HEADING}\n", f"{HEADING}\n900,any,any,any,any,any,drop\n"),
    "another packet": ("schedule.csv", "10.0.1.6", "10.0.1.7"),
    "another row": ("schedule.csv", "flush", "drain"),
    "a row taken out": ("schedule.csv", "drain\n", ""),
    "rows at the end": ("schedule.csv", "40001,443,tcp\ndrain\nflush\n",
                        "40001,443,tcp\ndrain\nflush\ncrash,b\nflush\n"),
    "another switch": ("net.toml", 'name = "c"', 'name = "e"'),
    "another port of a switch": ("net.toml", "ports = [2", "ports = [9"),
}


def stale_faults():
    with tempfile.TemporaryDirectory() as name:
        folder = Path(name, "day")
        shutil.copytree(EXAMPLES / "day", folder)
        write_model_journal(folder)
        if "newer" in asked(folder, "ends")[0]:
            yield "a fresh journal is told to be old"
        os.utime(folder / "policy2.csv")
        for question in (["ends"], ["packet", "1"], ["quiet"]):
            first = asked(folder, *question)[0].partition("\n")[0]
            if "policy2.csv is newer than journal.txt" not in first:
                yield f"{question}: the first line is {first!r}"
        for script in ([DESK / "view", folder], [DESK / "draw", folder, "1"]):
            if "policy2.csv is newer" not in subprocess.run(script, capture_output=True, text=True).stderr:
                yield f"{script} doesn't say that policy2.csv is newer"
        out, errors, _ = asked(folder, "ends", "--json")
        if "newer" not in errors or json.loads(out)["packets"] != 4:
            yield "with --json the caution isn't on standard error"
        for what, (file, old, new) in EDITS.items():
            text = (folder / file).read_text()
            edited = text.replace(old, new).replace('"c"', '"e"' if what == "another switch" else '"c"')
            (folder / file).write_text(edited)
            if edited == text:
                yield f"{what} edits nothing"
            for question in (["ends"], ["packet", "1"], ["rules"], ["packets"], ["quiet"]):
                yield from desk.refusal_faults(f"{what}, {question}", "ask", str(folder), *question)
            for script in (["view", str(folder)], ["draw", str(folder), "1"]):
                yield from desk.refusal_faults(f"{what}, {script[0]}", *script)
            (folder / file).write_text(text)
        yield from last_row_faults(folder)


def last_row_faults(folder):
    """A journal whose schedule was shorter: its last drain or flush would have done something."""
    whole = (folder / "schedule.csv").read_text()
    for gone, told in (("flush\n", "message 35 waits after row 14"),
                       ("drain\nflush\n", "packet 4 travels after row 13")):
        (folder / "schedule.csv").write_text(whole.removesuffix(gone))
        write_model_journal(folder)
        if asked(folder, "ends")[2]:
            yield f"a journal without {gone!r} is refused beside its own schedule"
        (folder / "schedule.csv").write_text(whole)
        os.utime(folder / "journal.txt")
        yield from desk.refusal_faults(f"without {gone!r}", "ask", str(folder), "ends")
        if told not in asked(folder, "ends")[1]:
            yield f"without {gone!r}: {asked(folder, 'ends')[1]!r}, and not {told!r}"
        yield from desk.refusal_faults(f"without {gone!r}, view", "view", str(folder))


WRONG = [
    ["packets", "version"], ["packets", "colour", "red"], ["packets", "version", "x"],
    ["packets", "end", "gone"], ["packets", "switch", "zz"], ["packets", "from", "-1"],
    ["packets", "by", "cache", "by", "cache"], ["packets", "--csv", "--json"], ["ends", "--csv"],
    ["dead", "x"], ["dead", "net.toml"], ["dead", "policy.csv", "x"], ["plan", "none.csv"], ["plan", "a", "b"], ["quiet", "x"], ["reach"],
    ["reach", "any", "any", "any", "any"], ["reach", "any", "any", "any", "any", "tcp", "x"],
    ["reach", "10.0.0.0/33", "any", "any", "any", "tcp"], ["reach", "any", "any", "9-1", "any", "1"],
    ["plan", "schedule.csv"], ["ends", "--model"], ["plan", "--program", "none"],
    ["plan", "--program", "/bin/echo"], ["dead", "--program", "/bin/echo"],
    ["reach", "any", "any", "any", "any", "tcp", "--program", "/bin/echo"],
]
WRONG_POLICIES = [
    "1,10.0.0.0/40,any,any,any,any,drop", "x,any,any,any,any,any,drop",
    "1,any,any,9-3,any,any,drop", "1,any,any,any,any,sctp,drop",
    "1,any,any,any,any,any,drop\n1,any,any,any,any,tcp,drop", "1,any,any",
    "1,any,any,any,any,any,out:99", "".join(f"{k},any,any,1-65534,1-65534,6,drop\n" for k in range(9)),
    "".join(f"{k},any,any,any,any,{k % 256},drop\n" for k in range(2001)),
]


def wrong_word_faults():
    for words in WRONG:
        yield from desk.refusal_faults(" ".join(words), "ask", "day", *words)
    with tempfile.TemporaryDirectory() as name:
        yield from desk.refusal_faults("no policy", "ask", name, "dead")
        for row in WRONG_POLICIES:
            Path(name, "policy.csv").write_text(f"{HEADING}\n{row}\n")
            for question in (["dead"], ["plan"], ["reach", "any", "any", "any", "any", "tcp"]):
                yield from desk.refusal_faults(row[:99], "ask", name, *question)
            said = refusals.answer(["compile", "policy.csv"], Path(name))[0].removeprefix("difane: ")
            if said == "" or said not in asked(name, "dead")[1]:
                yield f"dead rows are told of {row[:99]}: {said}"


def asked(folder, *words):
    done = subprocess.run([DESK / "ask", folder, *words], capture_output=True, text=True)
    return done.stdout, done.stderr, done.returncode


def write_model_journal(folder):
    done = subprocess.run([HOME / "desk/run", folder, "--model"], capture_output=True, text=True)
    assert done.returncode == 0, done.stderr


def main():
    faults = [*stale_faults(), *wrong_word_faults()]
    print("\n".join(faults[:20]) or "stale journals and wrong words: all refused")
    sys.exit(bool(faults))


if __name__ == "__main__":
    main()
