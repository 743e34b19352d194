"""Who answers a question to `difane`: the proved program, one that is built anew, the slow model.

A question is a folder with files, and the arguments of a command over them. An answer has what the
program printed, its line on standard error, and its status.
"""
import re
import shutil
import subprocess
import sys
import tempfile
from pathlib import Path
from typing import NamedTuple

from .clock import Clock
from .places import MODEL, TOP
from .script import Mistake

CRATE = TOP / "crates/difane"
PROVED = CRATE / "out/difane"
MODELS = {
    "replay": ["slow_replay.py"], "flows": ["slow_replay.py", "--flows"],
    "rebalance": ["rebalance.py"], "load": ["load_case.py"],
    **dict.fromkeys(("compile", "show"), ["plan_model.py"]),
}
BUILDS, WORKS, PLAYS = "rt builds the program", "the slow model works", "the program works"
PLAYERS = ("replay", "flows", "rebalance")  # the commands that play a schedule
KEPT_NAMES = ("program", "stdin", "stdout", "stderr", "case")  # by `rt try`, for itself
MANY_MESSAGES = 990_000  # before a step that begins with so many the program stops full
LARGE = 1 << 16  # bytes of a schedule from which on its journal may be too long for `rt try`
LIMIT = 1 << 20  # bytes of output above which `rt try` gives none
NO_ANSWER = -1

import refusals


class Question(NamedTuple):
    """Arguments over files of a folder; `label` names the folder where several are asked about.

    The answer is written as `output` into the folder `home`, where the question comes from.
    """

    folder: Path
    label: str
    args: list
    files: list
    output: str
    home: Path

    def name(self):
        """What is asked, in a word: the folder, and the file of the answer or the command."""
        if self.args[0] == "load":
            return " ".join(self.args)
        return f"{self.home.resolve().name}/{self.output or self.args[0]}"


class Answer(NamedTuple):
    """What was printed, the line of standard error or why there is none, the status, by whom."""

    text: str
    told: str
    status: int
    by: str


def finished(command, folder, what=""):
    """Runs a command to its end, with a clock; where it is interrupted it is let end by itself."""
    pipes = {"stdin": subprocess.DEVNULL, "stdout": subprocess.PIPE, "stderr": subprocess.PIPE}
    clock = Clock(what)
    with subprocess.Popen(command, cwd=folder, text=True, errors="replace", **pipes) as child:
        try:
            text, errors = awaited(child, clock)
        except KeyboardInterrupt:
            child.terminate()
            child.communicate()
            raise
        finally:
            clock.stop()
    return text, errors, child.returncode


def awaited(child, clock):
    """What a process writes until it ends."""
    while True:
        try:
            return child.communicate(timeout=clock.step)
        except subprocess.TimeoutExpired:
            clock.tick()


def by_program(program, question):
    """The answer of a program that is there."""
    try:
        text, errors, status = finished([str(program), *question.args], question.folder, PLAYS)
    except OSError as error:
        raise Mistake(f"{program} can't be run: {error.strerror}") from error
    return Answer(text, errors.removesuffix("\n"), status, "program")


def is_older_than_sources():
    """Whether a source of the program was changed after it was built."""
    built = PROVED.stat().st_mtime
    return any(file.stat().st_mtime > built for file in TOP.glob("crates/*/src/**/*.rt"))


def readme_place():
    """Where the README tells of the kit."""
    lines = (TOP / "README.md").read_text().splitlines()
    told = [at for at, line in enumerate(lines, 1) if "rt --version" in line]
    return f"README.md, line {told[0]}," if told else "README.md"


def has_sources():
    """Whether there is anything to build: a copy that was installed has no sources."""
    return (CRATE / "src").is_dir()


def kit_fault():
    """Why nothing can be built, or an empty text."""
    if not has_sources():
        return "this copy has no sources: a clone builds the program"
    if shutil.which("rt") is None:
        return f"the command rt isn't on the path: {readme_place()} says which kit has it"
    wanted = re.search(r"logic\s+([0-9a-f]{16})", (TOP / "README.md").read_text())
    found = "".join(finished(["rt", "--version"], CRATE, "asks rt for its version")[:2]).strip().partition("\n")[0]
    if wanted and wanted[1] not in found:
        return f"rt is of another kit: it is {found!r}, and {readme_place()} needs {wanted[1]}"
    return ""


def by_model(question):
    """The answer of the slow model to files that are accepted."""
    command, *args = question.args
    if command == "audit":  # the forecast has read the trace, and found each line good
        return Answer("yes\n", "", 0, "model")
    script, *flags = MODELS[command]
    model = [sys.executable, "-B", str(MODEL / script), *args, *flags]
    text, errors, status = finished(model, question.folder, WORKS)
    if status != 0:
        raise Mistake(f"{MODEL / script} ended with status {status}:\n{errors.rstrip()}")
    if text.count("\n  sent ") >= MANY_MESSAGES:
        raise Mistake(f"the play has {MANY_MESSAGES:,} messages or more: only the program stops it")
    return Answer(text, "", 0, "model")


def forecast(question):
    """What the program will refuse, by the slow model's readers; status 0 where it is nothing."""
    told, status = refusals.answer(question.args, question.folder)
    return Answer("", told, status, "forecast")


def is_long(question):
    """Whether the journal may be too long for the quick runner, by the size of the schedule."""
    path = question.folder / question.files[0] if question.args[0] in PLAYERS else None
    return path is not None and path.stat().st_size > LARGE


# `rt try`: one build for all questions.


def labelled(question, name):
    """The name of a file of the question in the folder in which it is tried."""
    return f"{question.label}/{name}" if question.label else name


def tried_args(question):
    """The arguments of the question in the folder in which it is tried."""
    return [labelled(question, arg) if arg in question.files else arg for arg in question.args]


def data_flags(questions):
    """The files of all questions as `rt try` takes them."""
    files = {
        labelled(question, name): (question.folder / name).resolve()
        for question in questions
        for name in question.files
    }
    return [word for name, path in files.items() for word in ("--data", f"{name}={path}")]


def try_all(questions):
    """What `rt try` prints and says, and its status: the one call of the kit.

    One question is its arguments. Several are files of a folder: of each, its input, which is
    empty, and its arguments, one a line.
    """
    begin = ["rt", "try", *data_flags(questions)]
    if len(questions) == 1:
        return finished([*begin, "--", *tried_args(questions[0])], CRATE, BUILDS)
    with tempfile.TemporaryDirectory(prefix="difane-") as folder:
        for number, question in enumerate(questions, 1):
            Path(folder, f"q{number}").touch()
            args = "".join(f"{arg}\n" for arg in tried_args(question))
            Path(folder, f"q{number}.args").write_text(args)
        return finished([*begin, "--cases", folder], CRATE, BUILDS)


def by_build(questions):
    """The answers of a program that is built for these questions."""
    text, errors, _ = try_all(questions)
    if len(questions) == 1:
        names, texts, form = [""], {"": text}, r"^run=()(.*)$"
    else:
        names = [f"q{number}" for number in range(1, len(questions) + 1)]
        cut = re.split(r"^== (\S+)\n", text, flags=re.M)
        texts, form = dict(zip(cut[1::2], cut[2::2])), r"^case=(\S+)(.*)$"
    ends = ends_of(errors, form)
    found = [answer_of(texts.get(name, ""), ends.get(name), errors) for name in names]
    return [without_label(*pair) for pair in zip(questions, found)]


def without_label(question, answer):
    """The answer, whose line names the file as the question does."""
    told = answer.told.replace(f" {question.label}/", " ") if question.label else answer.told
    return answer._replace(told=told)


def ends_of(errors, form):
    """What standard error says of each run, by its name: the line of its end, and those before."""
    found, start = {}, 0
    for match in re.finditer(form, errors, re.M):
        found[match[1]] = match[2], errors[start : match.start()]
        start = match.end() + 1
    return found


def answer_of(text, end, errors):
    """The answer of one run, by the line of its end."""
    line, before = end or ("", errors)
    status = re.search(r"\bstatus=(\d+)", line)
    if status:
        told = re.search(r"^difane: .*$", before, re.M)
        return Answer(text, told[0] if told else "", int(status[1]), "build")
    why = re.search(r"^checked: no-answer: (.*)$", before, re.M)
    if not why and "no-answer" not in line:
        raise Mistake(f"rt try printed no answer:\n{errors.rstrip()}")
    return Answer("", why[1] if why else "the quick runner printed no answer", NO_ANSWER, "build")
