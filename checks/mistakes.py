#!/usr/bin/env python3
"""Checks what `desk/run` says of mistakes: `checks/mistakes.py [BIN]`.

Each case of checks/mistakes.toml has the program's line and what desk/parts/mistakes.py says after it.
Where BIN is given, the line is that of this program; otherwise it is that of `model/refusals.py`.
`checks/mistakes.py --write` puts the present ones into the table. It ends with 1 where one differs.

A case has `run`, the arguments, and files that differ from those of BASES: `policy`, `policy2`,
`change` and `schedule` are rows after a heading, `net` a text, `files` whole files by their names,
`latin` too, in Latin-1, `absent` names files that are not there, and `folders` has folders. `many`
says how often a row, in which `{}` is its number, comes after a file. A case without a line of
the program has the cautions of its folder. Where `line` is there, it is the program's: no file
causes it.
"""
import re
import shlex
import subprocess
import sys
import tempfile
import tomllib
from collections import Counter
from pathlib import Path

HOME = Path(__file__).resolve().parent.parent
TABLE = HOME / "checks/mistakes.toml"

sys.dont_write_bytecode = True
sys.path[:0] = [str(HOME / "desk"), str(HOME / "model")]

import refusals
from parts.cautions import folder_cautions
from parts.mistakes import explain

HEADINGS = {
    "schedule": "event,arguments",
    "policy": "priority,src,dst,sport,dport,proto,action",
    "policy2": "priority,src,dst,sport,dport,proto,action",
    "change": "op,priority,src,dst,sport,dport,proto,action",
}
NETWORK = """[[switch]]
name = "a"
ports = [1]

[[switch]]
name = "b"
authority = 1000

[[link]]
ends = ["a", "b"]
"""
# The files of a case on one switch, and of one on a network.
BASES = {
    False: {"schedule": ["packet,s0,10.1.1.1,9.9.9.9,5000,80,tcp"]},
    True: {"schedule": ["packet,a,10.1.1.1,9.9.9.9,5000,80,tcp", "drain"], "net": NETWORK},
}
POLICY = ["100,10.0.0.0/8,any,any,80,tcp,out:1", "50,any,any,any,any,any,drop"]


def write_files(case, folder):
    """Writes the files of a case."""
    texts = {"policy": POLICY, **BASES[case.get("on_network", "--net" in case["run"])], **case}
    for name, heading in HEADINGS.items():
        if name in texts:
            rows = [heading, *texts[name]]
            (folder / f"{name}.csv").write_text("".join(f"{row}\n" for row in rows))
    if "net" in texts:
        (folder / "net.toml").write_text(texts["net"])
    for key, encoding in (("files", "utf-8"), ("latin", "latin-1")):
        for name, text in case.get(key, {}).items():
            (folder / name).write_bytes(text.encode(encoding))
    for name, (count, row) in case.get("many", {}).items():
        with open(folder / name, "a") as file:
            file.writelines(row.replace("{}", str(number)) for number in range(1, count + 1))
    for name in case.get("absent", []):
        (folder / name).unlink()
    for name in case.get("folders", []):
        (folder / name).mkdir()


def told(program, args, folder):
    """The line that is written on standard error, by the program or by the model."""
    if program is None:
        return refusals.answer(args, folder)[0]
    done = subprocess.run([program, *args], cwd=folder, capture_output=True, text=True)
    return done.stderr.removesuffix("\n")


def answer(program, case):
    """The line of a case, and what is said of it."""
    with tempfile.TemporaryDirectory() as name:
        folder, args = Path(name), shlex.split(case["run"])
        write_files(case, folder)
        line = case.get("line") or told(program, args, folder)
        says = explain(line, args, folder) if line else folder_cautions(folder, "schedule.csv")
        return line, "".join(f"{text}\n" for text in says)


def written(block, line, says):
    """The text of a case with its line and what is said."""
    bare = re.split(r"^told = ", block, maxsplit=1, flags=re.M)[0].rstrip("\n")
    return f'{bare}\ntold = "{line}"\nsays = \'\'\'\n{says}\'\'\'\n\n'


def write_table(answers):
    head, *blocks = TABLE.read_text().split("[[case]]\n")
    blocks = [written(block, *found) for block, found in zip(blocks, answers)]
    TABLE.write_text("[[case]]\n".join([head, *blocks]).rstrip("\n") + "\n")


def main():
    if len(sys.argv) > 2 or sys.argv[1:] in (["-h"], ["--help"]):
        sys.exit(__doc__)
    cases = tomllib.loads(TABLE.read_text())["case"]
    if sys.argv[1:] == ["--write"]:
        write_table([answer(None, case) for case in cases])
        return
    program = str(Path(sys.argv[1]).resolve()) if sys.argv[1:] else None
    wrong = 0
    for case in cases:
        wanted, found = (case["told"], case["says"]), answer(program, case)
        if found != wanted:
            wrong += 1
            print(f"{case['is']}: wanted {wanted[0]}\n{wanted[1]}found {found[0]}\n{found[1]}")
    twice = [name for name, count in Counter(case["is"] for case in cases).items() if count > 1]
    print("".join(f"two cases are called {name}\n" for name in twice), end="")
    source = program or "model/refusals.py"
    print(f"{len(cases)} mistakes, {wrong} told otherwise; the program's lines are of {source}")
    sys.exit(wrong + len(twice) > 0)


main()
