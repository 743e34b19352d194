#!/usr/bin/env python3
"""Counts what the program takes for inputs of three sizes, and says how each kind of input grows.

usage: bench/rows.py BIN [--write] [WORD..]     --write: puts all lines into bench/README.md
       bench/rows.py --check                    whether the table there has each kind, once

BIN is the proved program (`rt run` leaves it in crates/difane/out/difane). The kinds of inputs are
those of `row_kinds.py`, many of each kind of row, of refused update, of policy, of command and of
text; and those of `worst_kinds.py`, which are meant to be dear. With words: only the kinds whose
names have one of them.

Prints a line a kind: the least size, the next ones being twice and four times that; millions of
instructions at each size (by callgrind: the same on every machine and under any load); what they
grow with; and the peak memory in MiB at each size. Of the kinds that are meant to be dear it has
the seconds of the slow model too, `-` where these are more than 10. Sizes are rows of the schedule,
lines of the trace, rows of the policy, versions, bytes, or what the name says.

What the first size takes beyond nothing is left out: from the second size to the third the
instructions rise by R times what they rise by from the first to the second. Up to 2.4 the growth is
*linear*, and *none* where the third size takes a tenth more than the first. Up to 4.8 it is what
`row_kinds.py` or `worst_kinds.py` calls it, such as *rows x entries*; if neither does, or above
that, it is *worse*, and the script ends with status 1. So it does where a run ends with another
status than it must. It needs GNU time and valgrind.
"""
import os
import re
import resource
import subprocess
import sys
import tempfile
from pathlib import Path
from typing import NamedTuple

from row_kinds import JUDGED, PLAIN
from worst_kinds import WORST, WORST_JUDGED

HOME = Path(__file__).resolve().parent
PAGE = HOME / "README.md"
MODEL = HOME.parent / "model"
LEAST = 1_000  # the first size of most kinds
TIMES = 1, 2, 4
SAME, LINEAR, PRODUCT = 1.1, 2.4, 4.8
MOST_SECONDS = 10  # of the model
BEGIN, END = "    kind ", "\n\n"


class Kind(NamedTuple):
    """The first size, what makes an input of a size, what its time grows with, and whether it is
    meant to be dear."""

    least: int
    make: object
    work: str = "linear"
    is_worst: bool = False


class Ended(Exception):
    """A run ended with another status than it must."""


# ---- the kinds


def kind_of(given):
    return Kind(*given) if isinstance(given, tuple) else Kind(LEAST, given)


def judged(kind):
    """The same with `--quiet`."""

    def make(n):
        made = kind.make(n)
        return made._replace(words=[*made.words, "--quiet"])

    return kind._replace(make=make)


def kinds():
    plain = {name: kind_of(given) for name, given in PLAIN.items()}
    worst = {name: kind_of(given)._replace(is_worst=True) for name, given in WORST.items()}
    all_ = plain | worst
    quiet = {f"--quiet: {name}": judged(all_[name]) for name in (*JUDGED, *WORST_JUDGED)}
    return all_ | quiet


# ---- what a run takes


def write(folder, files):
    os.mkdir(folder)
    for name, text in files.items():
        with open(os.path.join(folder, name), "w") as file:
            file.write(text)


def mebibytes(command, folder, status):
    """The peak memory, by GNU time: what a child of this script inherits would count as its own."""
    timed = ["/usr/bin/time", "-q", "-f", "%M", "-o", "memory", *command]
    done = subprocess.run(timed, cwd=folder, stdout=subprocess.DEVNULL, stderr=subprocess.DEVNULL)
    if done.returncode != status:
        raise Ended(f"status {done.returncode}, not {status}")
    with open(os.path.join(folder, "memory")) as memory:
        return int(memory.read()) / 1024


def millions(command, folder):
    counted = ["valgrind", "--tool=callgrind", "--callgrind-out-file=/dev/null", *command]
    done = subprocess.run(counted, cwd=folder, stdout=subprocess.DEVNULL, stderr=subprocess.PIPE)
    return int(re.search(rb"refs:\s*([\d,]+)", done.stderr)[1].replace(b",", b"")) / 1e6


def model_words(words, status):
    """How the slow model is asked the same."""
    command, *rest = words
    if status > 1:
        return ["refusals.py", *words]
    scripts = {"audit": "slow_audit.py", "rebalance": "rebalance.py", "load": "load_case.py"}
    scripts |= {"compile": "plan_model.py", "show": "plan_model.py"}
    flag = ["--flows"] if command == "flows" else []
    return [scripts.get(command, "slow_replay.py"), *rest, *flag]


def limit():
    resource.setrlimit(resource.RLIMIT_CPU, (MOST_SECONDS, MOST_SECONDS))


def model_seconds(words, folder, status):
    """Seconds of the processor, if they are few."""
    script, *rest = model_words(words, status)
    command = [sys.executable, str(MODEL / script), *rest]
    with open(os.devnull, "wb") as out:
        child = subprocess.Popen(command, cwd=folder, stdout=out, stderr=out, preexec_fn=limit)
        _, ended, used = os.wait4(child.pid, 0)
    child.returncode = os.waitstatus_to_exitcode(ended)
    return used.ru_utime + used.ru_stime if child.returncode >= 0 else None


class Taken(NamedTuple):
    """What one size took."""

    millions: float
    mebibytes: float
    seconds: float


def taken(program, made, folder, with_model):
    write(folder, made.files)
    command = [program, *made.words]
    memory = mebibytes(command, folder, made.status)
    model = model_seconds(made.words, folder, made.status) if with_model else None
    return Taken(millions(command, folder), memory, model)


def all_taken(program, kind):
    """What each size took; the model is left out after the first size for which it is too slow."""
    found, with_model = [], kind.is_worst
    with tempfile.TemporaryDirectory() as home:
        for times in TIMES:
            made = kind.make(kind.least * times)
            found.append(taken(program, made, os.path.join(home, str(times)), with_model))
            with_model = found[-1].seconds is not None
    return found


# ---- growth, lines and the page


def growth(counts, work):
    """The word for how the instructions grow, and whether they grow too fast."""
    first, second, third = counts
    if third < SAME * first:
        return "none", False
    ratio = (third - second) / max(second - first, 1e-9)
    if ratio <= LINEAR:
        return "linear", False
    if ratio <= PRODUCT and work != "linear":
        return work, False
    return f"worse: {ratio:.1f}", True


def columns(numbers, form):
    return " ".join("      -" if number is None else format(number, form) for number in numbers)


def line_of(program, name, kind):
    """The line of a kind, and whether it grows too fast or ends as it must not."""
    begin = f"    {name:44} {kind.least:7,}"
    try:
        found = all_taken(program, kind)
    except Ended as wrong:
        return f"{begin} {wrong}", True
    counts, memory, seconds = zip(*found)
    word, is_worse = growth(counts, kind.work)
    numbers = f"{columns(counts, '8.1f')}  {word:16} {columns(memory, '6.1f')}"
    return f"{begin} {numbers}  {columns(seconds, '7.2f')}", is_worse


HEADING = (
    f"{BEGIN}{'':40} {'size':>7} {'millions of instructions':>26}  {'growth':16} "
    f"{'MiB':>20}  {'seconds of the model':>23}"
)


def put(lines):
    """Puts the table into the page."""
    text = PAGE.read_text()
    begin = text.index(BEGIN)
    end = text.index(END, begin)
    PAGE.write_text(text[:begin] + "\n".join([HEADING, *lines]) + text[end:])


def check():
    """Whether the page's table has each kind once, in order, and none that is worse."""
    text = PAGE.read_text()
    begin = text.index(BEGIN)
    rows = text[begin : text.index(END, begin)].splitlines()[1:]
    names = [row[4:48].rstrip() for row in rows]
    if names != list(kinds()):
        sys.exit(f"{PAGE}: the table has other kinds: {sorted(set(names) ^ set(kinds()))}")
    print(f"{len(rows)} kinds, {sum('worse' in row for row in rows)} worse than they must be")


def main():
    words = sys.argv[1:]
    if not words:
        sys.exit(__doc__)
    if words == ["--check"]:
        return check()
    program, *words = words
    wanted = [word for word in words if word != "--write"]
    lines, bad = [], 0
    for name, kind in kinds().items():
        if wanted and not any(word in name for word in wanted):
            continue
        line, is_worse = line_of(os.path.abspath(program), name, kind)
        print(line, flush=True)
        lines.append(line)
        bad += is_worse
    print(f"{len(lines)} kinds, {bad} worse than they must be")
    if "--write" in words and not wanted:
        put(lines)
    sys.exit(bad > 0)


main()
