#!/usr/bin/env python3
"""Replaces the program, or `rt`, in checks of the scripts around them.

usage: checks/stand_in.py ARGUMENTS       as `difane`: what the slow model says
       checks/stand_in.py try FLAGS..     as `rt try`, with one run or with `--cases FOLDER`
       checks/stand_in.py --version       as `rt`: the kit that README.md names

It is called by another name, by a link. As `rt try` it copies the files of `--data` into a folder,
as the kit's help says, and prints no answer above 1 MiB.
"""
import re
import subprocess
import sys
import tempfile
from pathlib import Path

HOME = Path(__file__).resolve().parent.parent
LIMIT = 1 << 20
MODELS = {
    "replay": ["slow_replay.py"], "flows": ["slow_replay.py", "--flows"],
    "rebalance": ["rebalance.py"], "audit": ["slow_audit.py"], "load": ["load_case.py"],
    **dict.fromkeys(("compile", "show"), ["plan_model.py"]),
}

sys.dont_write_bytecode = True
sys.path.insert(0, str(HOME / "model"))

import refusals


def answer(args, folder):
    """The output, the line of standard error and the status of the program."""
    line, status = refusals.answer(args, Path(folder))
    if status:
        return "", f"{line}\n", status
    model, *flags = MODELS[args[0]]
    command = [sys.executable, "-B", str(HOME / "model" / model), *args[1:], *flags]
    done = subprocess.run(command, cwd=folder, capture_output=True, text=True)
    return done.stdout, done.stderr, done.returncode


def values(flags, name):
    return [flags[at + 1] for at, flag in enumerate(flags[:-1]) if flag == name]


def copy_data(flags, folder):
    for pair in values(flags, "--data"):
        name, _, file = pair.partition("=")
        (folder / name).parent.mkdir(parents=True, exist_ok=True)
        (folder / name).write_bytes(Path(file).read_bytes())


def end_of(text, status):
    """How a run ended, and its lines on standard error."""
    if len(text) > LIMIT:
        return "run=no-answer", "checked: no-answer: the program wrote more than 1048576 bytes\n"
    end = f"ended status={status}"
    return f"run={end} runners=1 races=unchecked", f"checked: {end}\n"


def try_one(args, folder):
    text, errors, status = answer(args, folder)
    end, lines = end_of(text, status)
    if "ended" in end:
        sys.stdout.write(text)
    sys.stderr.write(f"{errors}{lines}{end} proved=no\n")
    sys.exit(status if "ended" in end else 6)


def try_cases(cases, folder):
    for path in sorted(cases.glob("*.args")):
        text, errors, status = answer(path.read_text().splitlines(), folder)
        end, lines = end_of(text, status)
        if "ended" in end:
            sys.stdout.write(f"== {path.stem}\n{text}")
        sys.stderr.write(f"{errors}{lines}case={path.stem} {end} proved=no\n")


def main():
    args = sys.argv[1:]
    if args == ["--version"]:
        print("kit", *re.search(r"logic\s+[0-9a-f]{16}", (HOME / "README.md").read_text())[0].split())
        return
    if args[:1] != ["try"]:
        text, errors, status = answer(args, ".")
        sys.stdout.write(text)
        sys.stderr.write(errors)
        sys.exit(status)
    with tempfile.TemporaryDirectory() as name:
        copy_data(args, Path(name))
        cases = values(args, "--cases")
        if cases:
            try_cases(Path(cases[0]), Path(name))
        else:
            try_one(args[args.index("--") + 1 :], Path(name))


main()
