#!/usr/bin/env python3
"""Checks `desk/install`: `checks/desk_install.py`.

Under a prefix of its own, from another folder and as another user where it is root's, each command
of desk/README.md prints by its name what the page has after it. Afterwards nothing is left. It
ends with 1 where that fails.
"""
import os
import re
import subprocess
import sys
import tempfile
from pathlib import Path

HOME = Path(__file__).resolve().parent.parent
sys.path.append(str(HOME / "desk"))
from parts import plans

INSTALL, PAGE = HOME / "desk/install", HOME / "desk/README.md"
PYTHON = Path("/usr/bin/python3")
BLOCK = re.compile(r"^    \$ desk/(\S+) ?(.*)\n((?:    .*\n|\n(?=    (?!\$)))*)", re.M)


def other_user():
    """The arguments that make a call another user's, where that may be done."""
    may = os.geteuid() == 0 and PYTHON.exists()
    version = subprocess.run([PYTHON, "--version"], capture_output=True, text=True) if may else None
    return {"user": "nobody"} if version and " 3.11" in version.stdout else {}


def call(prefix, folder, name, words, user):
    """What a command prints that was installed, as the page has it."""
    path = f"{prefix}/bin:/usr/bin:/bin" if user else f"{prefix}/bin:{os.environ['PATH']}"
    places = {"PATH": path, "HOME": str(folder), "LANG": "C.UTF-8"}
    done = subprocess.run([f"difane-{name}", *words.split()], cwd=folder, env=places,
                          capture_output=True, text=True, **user)
    said = (done.stdout + done.stderr).replace(plans.SAYS["program"], plans.SAYS["model"])
    return "".join(f"    {line}".rstrip() + "\n" for line in said.splitlines())


def faults(folder):
    prefix, user = folder / "prefix", other_user()
    subprocess.run([INSTALL, prefix], check=True, stdout=subprocess.DEVNULL)
    blocks = BLOCK.findall(PAGE.read_text())
    if not blocks:
        yield "the page has no commands"
    for name, words, wanted in blocks:
        if call(prefix, folder, name, words, user) != wanted:
            yield f"difane-{name} {words} prints another text"
    said = call(prefix, folder, "run", "first", user)
    if "decided 1 v1 " not in said or "desk/run: " not in said:
        yield f"difane-run first prints {said}"
    for place in ("share/man/man1/difane.1", "share/bash-completion/completions/difane"):
        if not (prefix / place).is_file():
            yield f"there is no {place}"
    again = subprocess.run([INSTALL, prefix], capture_output=True)
    if again.returncode:
        yield "a second call fails"
    (prefix / "bin/own").write_text("stays")
    subprocess.run([INSTALL, prefix, "--remove"], check=True, stdout=subprocess.DEVNULL)
    if [path.name for path in prefix.rglob("*")] != ["bin", "own"]:
        yield "what was put there isn't taken away"
    yield from refusals(prefix)


def refusals(prefix):
    """Each wrong call is one line, with status 2."""
    (prefix / "bin/difane-ask").write_text("not ours")
    for words in ([prefix], [prefix, "--remove"], [], ["--x"], [prefix, "--program", "none"], [""],
                  [prefix / "bin/own/below"]):
        done = subprocess.run([INSTALL, *words], capture_output=True, text=True)
        if done.returncode != 2 or done.stderr.count("\n") != 1 or "desk/install: " not in done.stderr:
            yield f"{words}: status {done.returncode}, {done.stderr}"


def main():
    if sys.argv[1:]:
        sys.exit(__doc__)
    with tempfile.TemporaryDirectory() as name:
        Path(name).chmod(0o777)
        found = list(faults(Path(name)))
    print("\n".join(found) if found else "each command of the page works where it is installed")
    sys.exit(bool(found))


main()
