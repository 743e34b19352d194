"""Explains in words what the program refuses: its line, and then what it means and where to look.

`explain(told, args, folder)` takes the line that the program wrote, the arguments that it had, and
the folder of their file names. Nothing here decides whether a file is refused.
"""
import os
import re
from difflib import get_close_matches
from pathlib import Path

from .asked import Asked, names_hint
from .audit_mistakes import explain_audit
from .change_mistakes import CHANGE, explain_change
from .network_mistakes import NETWORK, explain_network
from .policy_mistakes import POLICY, explain_policy
from .script import Mistake
from .schedule_mistakes import SCHEDULE, explain_schedule
from .word_mistakes import explain_words

REFUSED = re.compile(r"difane: input (.*) code (\d+) row (\d+)")
STATUSES = {
    "difane: read fault": "a file is there, and can't be read: a folder, or no permission",
    "difane: write fault": "the output can't be written: a full disk, or a reader that ended",
    "difane: no memory": "memory ran out",
}
ANY_FILE = {0: "there is no such file", 20: "the file has more than 16,777,216 bytes"}


def explain(told, args, folder):
    """The lines that explain the program's line, each after two blanks."""
    found = REFUSED.fullmatch(told)
    if found:
        name, code, row = found[1], int(found[2]), int(found[3])
        lines = explain_refusal(Asked(args, folder), name, code, row)
    elif told.startswith("difane: no line "):
        lines = explain_audit(args, folder)
    elif told == "difane: words":
        lines = explain_words(args)
    elif told.startswith("difane: full row "):
        row = told.removeprefix("difane: full row ")
        lines = [f"row {row} takes a step before which 990,000 messages were sent: it stops there"]
    else:
        lines = [STATUSES[told]] if told in STATUSES else []
        lines += unreadable(args, folder) if told == "difane: read fault" else []
    return ["  " + line for line in lines]


def mistake_of(name, told, args, folder):
    """The same as a mistake in one line, which says of what folder, and the first reasons."""
    why = [line.strip() for line in explain(told, args, folder)][:3]
    return Mistake(f"{name}: {told.removeprefix('difane: ')}: {'; '.join(why)}")


def explain_refusal(asked, name, code, row):
    """What a code says of a file, by what the file is."""
    if code == 21:
        said = "code 21 of show: the network lacks a switch of this name"
        return [said, *names_hint(asked, name)]
    if code in ANY_FILE:
        return [f"code {code}: {ANY_FILE[code]}", *size_or_absence(asked, name, code)]
    if name == "load":
        return [f"code {code} of the load case's first policy: {POLICY[code]}"]
    role = asked.role(name, code)
    codes, explainer = {
        "network": (NETWORK, explain_network),
        "schedule": (SCHEDULE, explain_schedule),
        "policy": (POLICY, explain_policy),
        "change": (CHANGE, explain_change),
    }[role]
    return [f"code {code} of a {role}: {codes[code]}", *explainer(asked, name, code, row)]


def unreadable(args, folder):
    """The files that can't be read, since the line doesn't name them."""
    for name in [arg.removeprefix("--net=") for arg in args[1:]]:
        if (folder / name).is_dir():
            yield f"{name} is a folder"
        elif (folder / name).exists() and not os.access(folder / name, os.R_OK):
            yield f"{name} may not be read"


def size_or_absence(asked, name, code):
    """How large the file is, or which files of nearly this name are there."""
    path = asked.path(name)
    if code == 20:
        yield f"{name} has {path.stat().st_size:,} bytes"
        return
    if path.is_symlink():
        yield f"{name} is a link that leads nowhere"
    if not path.parent.is_dir():
        yield f"there is no folder {Path(name).parent}"
        return
    there = sorted(file.name for file in path.parent.iterdir() if file.is_file())
    near = [file for file in there if file.lower() == path.name.lower()]
    near = near or get_close_matches(path.name, there)
    yield f"the folder has {', '.join(near)}" if near else "the folder has no name like it"
