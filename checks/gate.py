#!/usr/bin/env python3
"""Writes the table of docs/GATE.md: `checks/gate.py [--measure]`.

For each crate it counts the lines of code (without tests), of definitions and of proofs, and the
must-fail edits. The seconds of the table stay unchanged, unless `--measure` is given: then it
runs the whole gate once, `rt ci`, at the top of this repository, where nothing may be kept yet, and
writes the processor seconds that the prover took for each crate's proof, for its tests (a crate
with tests is proved once more together with them) and for its edits. It looks five times a second
at each process of the prover that `rt ci` has begun, and takes the last figure that it saw of each.

Below the table it writes, and prints, the sum of the seconds, and the same as multiples of the
proof of YARDSTICK: machines differ in seconds, and less in that. About a run that it measured a
sentence says what it took as the system counts it, and what of that isn't in the table: linking
and running what was proved, and `rt` itself. Nothing is written if `rt ci` fails.
"""
import os
import re
import resource
import subprocess
import sys
import time
from pathlib import Path
from textwrap import fill

from crates import HOME, libraries, sources

GATE = HOME / "docs/GATE.md"
# A small proof that stands low and seldom changes.
YARDSTICK = "five_tuple"
HEAD = (
    "| Crate | Code | Definitions | Proofs | Edits "
    "| Seconds of the proof | of the tests | of the edits |"
)
KINDS = ("proof", "tests", "edits")
NO_CELLS = [""] * len(KINDS)
# How the two paragraphs below the table begin.
SUM, RUN = "The sum of the table", "The whole run took"
TICKS = os.sysconf("SC_CLK_TCK")


# ---- counts


def count(paths):
    return sum(len(path.read_text().splitlines()) for path in paths)


def test_files(name):
    """The files of the modules that stand under #[cfg(test)], and of those below them."""
    for path in sources(name, "src/*.rt"):
        for module in re.findall(r"#\[cfg\(test\)\]\s*mod (\w+);", path.read_text()):
            yield from sources(name, f"src/{module}.rt", f"src/{module}/**/*.rt")


def sizes(name):
    return (
        count({*sources(name, "src/**/*.rt")} - {*test_files(name)}),
        count(sources(name, "specs/**/*.antt")),
        count(sources(name, "proofs/**/*.antt")),
        len(sources(name, "must-fail/*.edit")),
    )


# ---- seconds


def processes():
    """Each process's parent, what names it for as long as the system runs, and its ticks with those
    of its children that ended."""
    found = {}
    for entry in filter(str.isdigit, os.listdir("/proc")):
        try:
            text = Path(f"/proc/{entry}/stat").read_text()
        except OSError:
            continue
        fields = text[text.rindex(")") + 2 :].split()
        found[int(entry)] = int(fields[1]), (entry, fields[19]), sum(map(int, fields[11:15]))
    return found


def task_of(process):
    """The crate and the kind of a check of the prover; none where the process is another."""
    try:
        args = Path(f"/proc/{process}/cmdline").read_text(errors="replace").split("\0")
        folder = os.readlink(f"/proc/{process}/cwd")
    except OSError:
        return None
    if not args[0].endswith("/bin/rattle") or "--crate-name" not in args:
        return None
    kind = "edits" if "/rt-edit-" in folder else "tests" if "--test" in args else "proof"
    return args[args.index("--crate-name") + 1], kind


def look(top, tasks, ticks):
    """Notes the ticks of each check below the process `top` so far, with all that it began."""
    found = processes()
    children = {}
    for process, (parent, _, _) in found.items():
        children.setdefault(parent, []).append(process)
    left = [(process, None) for process in children.get(top, [])]
    seen = {}
    while left:
        process, check = left.pop()
        _, name, own = found[process]
        if check is None:
            tasks[name] = tasks.get(name) or task_of(process)
            check = name if tasks[name] else None
        if check:
            seen[check] = seen.get(check, 0) + own
        left += [(child, check) for child in children.get(process, [])]
    for check, own in seen.items():
        ticks[check] = max(own, ticks.get(check, 0))


def measured():
    """The processor seconds of one whole run, by crate and kind, and of the run."""
    tasks, ticks = {}, {}
    with subprocess.Popen(["rt", "ci"], cwd=HOME) as run:
        while run.poll() is None:
            look(run.pid, tasks, ticks)
            time.sleep(0.2)
    if run.returncode:
        sys.exit("rt ci failed, so no seconds are written")
    usage = resource.getrusage(resource.RUSAGE_CHILDREN)
    seconds = {(name, kind): 0 for name in libraries() for kind in KINDS}
    for check, own in ticks.items():
        if tasks[check] in seconds:
            seconds[tasks[check]] += own / TICKS
    return seconds, usage.ru_utime + usage.ru_stime


# ---- the table


def kept_cells(text):
    """The cells of seconds that the table has, by the crate of their row."""
    for name, rest in re.findall(r"^\| `(\w+)` \|(.*)\|$", text, re.M):
        cells = [cell.strip() for cell in rest.split("|")][4:]
        if len(cells) == len(KINDS) and all(cells):
            yield name, list(map(int, cells))


def row(name, numbers):
    return f"| {name} | " + " | ".join(map(str, numbers)) + " |"


def table(cells):
    rows = [HEAD, "|" + "---|" * (HEAD.count("|") - 1)]
    counts = {name: sizes(name) for name in libraries()}
    rows += [row(f"`{name}`", [*own, *cells.get(name, NO_CELLS)]) for name, own in counts.items()]
    all_cells = map(sum, zip(*cells.values())) if counts.keys() <= cells.keys() else NO_CELLS
    return "\n".join([*rows, row("All crates", [*map(sum, zip(*counts.values())), *all_cells])])


def sums(cells):
    """What is said below the table of its sum; nothing where a crate has no seconds yet."""
    if not libraries().keys() <= cells.keys():
        return ""
    proofs, tests, edits = (sum(cells[name][k] for name in libraries()) for k in range(len(KINDS)))
    whole, one = proofs + tests + edits, cells[YARDSTICK][0]
    shares = f"{proofs / 60:.0f} for proofs, {tests / 60:.0f} for tests, {edits / 60:.0f} for edits"
    text = f"{SUM} is {whole / 60:.0f} processor minutes: {shares}."
    return f"{text} That is {whole / one:.0f} times the proof of `{YARDSTICK}`."


def told(seconds, whole):
    """What is said of the run that was measured."""
    rest = round(whole - sum(seconds.values()))
    return f"{RUN} {whole / 60:.0f} processor minutes: the seconds of the table, and {rest} beside."


def parts_of(page):
    """The text before the table, the table, and the paragraphs after it."""
    start = page.index(HEAD)
    table, *rest = page[start:].split("\n\n")
    return page[:start], table, rest


def main():
    before, old, rest = parts_of(GATE.read_text())
    cells, ran = dict(kept_cells(old)), [part for part in rest if part.startswith(RUN)]
    if sys.argv[1:]:
        seconds, whole = measured()
        cells = {name: [round(seconds[name, kind]) for kind in KINDS] for name in libraries()}
        ran = [fill(told(seconds, whole), 100)]
    cells = {name: own for name, own in cells.items() if name in libraries()}
    said = [fill(sums(cells), 100), *ran] if sums(cells) else []
    rest = [part for part in rest if not part.startswith((SUM, RUN))]
    GATE.write_text(before + "\n\n".join([table(cells), *said, *rest]))
    print("\n\n".join(said) or "some crates have no seconds")


if __name__ == "__main__":
    if sys.argv[1:] not in ([], ["--measure"]):
        sys.exit(__doc__)
    main()
