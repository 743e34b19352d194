#!/usr/bin/env python3
"""Compares the texts of examples/ with the models, and the pictures with the scripts that draw them.

Plans and tables are those of `model/plan_model.py`, what replays print is that of
`model/slow_replay.py`, counts of load cases are those of `model/load_case.py`, and verdicts on
traces are those of `model/slow_audit.py`. The gate compares the same texts with the program
(crates/examples). What the program prints for commands that are refused, and for traces that aren't
good, is what `model/refusals.py` says.
"""
import re
import subprocess
import sys
from pathlib import Path

HOME = Path(__file__).resolve().parent.parent
FOLDER = HOME / "examples"
TOLD = HOME / "crates/examples/stdout"

sys.dont_write_bytecode = True
sys.path.insert(0, str(HOME / "model"))

import refusals

MODELS = {
    "compile": "plan_model.py",
    "show": "plan_model.py",
    "replay": "slow_replay.py",
    "flows": "slow_replay.py",
    "audit": "slow_audit.py",
    "rebalance": "rebalance.py",
    "load": "load_case.py",
}
# Each picture, and the script that draws it.
PICTURES = {
    "docs/campus.svg": ["desk/draw", "campus", "1"],
    "examples/skewed/loads.svg": ["desk/loads"],
    "examples/bad_night/before.svg": ["desk/draw", "examples/bad_night/journal.txt", "2"],
    "examples/bad_night/after.svg": ["desk/draw", "examples/bad_night/morning.txt", "3"],
}


def wrong_refusals():
    """The refused commands of which the model says something else than the program did."""
    lines = re.findall(r"^(.+)\n  status (\d), as -\n(difane: .+)$", TOLD.read_text(), re.M)
    for args, status, told in lines:
        if refusals.answer(args.split(" "), FOLDER) != (told, int(status)):
            yield f"{args} is refused in another way than the model's"
    if not lines:
        yield f"{TOLD} has no refused commands"


def wrong_records():
    """Whether the records of a day aren't those that are imported, or other packets than its meters
    note."""
    script = [str(HOME / "desk/nfdump"), str(FOLDER / "flow_records/records.txt")]
    made = subprocess.run(script, capture_output=True).stdout
    if made != (FOLDER / "flow_records/records.csv").read_bytes():
        yield "flow_records/records.csv has other records than desk/nfdump makes"
    totals = subprocess.run([*script, "--totals"], capture_output=True, text=True).stdout
    noted = re.findall(r"^meter port .*\n", (FOLDER / "day/journal.txt").read_text(), re.M)
    if totals.splitlines(True) != noted:
        yield "flow_records/records.txt has other packets than the meters of day/journal.txt note"


def main():
    wrong = list(wrong_refusals())
    for line in (FOLDER / "index.txt").read_text().splitlines():
        name, command, *args = line.replace("--net=", "--net ").split(" ")
        if name != "-":
            options = ["--flows"] if command == "flows" else []
            model = [sys.executable, str(HOME / "model" / MODELS[command]), *args, *options]
            done = subprocess.run(model, cwd=FOLDER, capture_output=True)
            if done.returncode != 0 or done.stdout != (FOLDER / name).read_bytes():
                wrong.append(f"{name} is another text than the model's")
    wrong += wrong_records()
    for picture, (script, *args) in PICTURES.items():
        drawn = subprocess.run([str(HOME / script), *args], cwd=HOME, capture_output=True)
        if drawn.stdout != (HOME / picture).read_bytes():
            wrong.append(f"{picture} is another picture than `{' '.join([script, *args])}`")
    print("\n".join(wrong) if wrong else "the texts are the model's, and the pictures are those of desk/draw")
    sys.exit(bool(wrong))


main()
