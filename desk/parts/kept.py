"""Answers of programs that were built, kept by the sums of the sources and of what was asked.

They are in ~/.cache/difane, or in $XDG_CACHE_HOME/difane; the oldest go where there are too many.
"""
import hashlib
import json
import os
from functools import cache
from pathlib import Path

from .places import TOP

MOST = 200  # answers that are kept
STATUSES = (0, 1, 3, 6)  # of answers that say nothing of the machine on which they were given


def place():
    """The folder of the answers."""
    home = os.environ.get("XDG_CACHE_HOME") or os.path.expanduser("~/.cache")
    return Path(home, "difane")


@cache
def sources():
    """The sum of the program's sources."""
    found = hashlib.sha256()
    for path in [TOP / "crates.txt", *sorted(TOP.glob("crates/*/src/**/*.rt"))]:
        add(found, str(path.relative_to(TOP)).encode())
        add(found, path.read_bytes() if path.is_file() else b"")
    return found.hexdigest()


def add(found, content):
    """Adds a text after its length, so that no two lists of texts have one sum by their form."""
    found.update(len(content).to_bytes(8, "big") + content)


def path_of(question):
    """Where the answer to this question is, if there is one."""
    found = hashlib.sha256(sources().encode())
    for arg in question.args:
        add(found, arg.encode(errors="surrogateescape"))
    for name in question.files:
        path = question.folder / name
        add(found, name.encode())
        add(found, path.read_bytes() if path.is_file() else b"")
    return place() / f"{found.hexdigest()}.json"


def read(question):
    """The text, the line and the status that are kept for this question, or None."""
    try:
        said = json.loads(path_of(question).read_text(encoding="utf-8"))
        return said["text"], said["told"], said["status"]
    except (OSError, ValueError, KeyError, TypeError):
        return None


def write(question, answer):
    """Keeps an answer; where the folder can't be written, none is kept."""
    if answer.status not in STATUSES:
        return
    path = path_of(question)
    said = {"text": answer.text, "told": answer.told, "status": answer.status}
    try:
        path.parent.mkdir(parents=True, exist_ok=True)
        part = path.with_suffix(f".{os.getpid()}")
        part.write_text(json.dumps(said), encoding="utf-8")
        part.rename(path)
        for old in sorted(place().glob("*.json"), key=os.path.getmtime)[:-MOST]:
            old.unlink()
    except OSError:
        return
