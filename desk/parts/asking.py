"""What desk/run is asked: its arguments, and the questions that they make of folders."""
import tomllib
from pathlib import Path

from . import places, runners
from .runners import Question
from .script import Mistake, Parser, say

POLICY, SCHEDULE, NET, JOURNAL = "policy.csv", "schedule.csv", "net.toml", "journal.txt"
FILES = {
    **dict.fromkeys(("replay", "flows", "rebalance"), [SCHEDULE, POLICY]),
    **dict.fromkeys(("compile", "show"), [POLICY]),
    "audit": [JOURNAL, POLICY],
}
SEVERAL = ("replay", "flows", "rebalance", "audit")  # they take later policies too
OUTPUTS = {
    "replay": JOURNAL, "compile": "plan.txt", "show": "show-{}.txt", "flows": "flows.txt",
    "rebalance": "rebalance.txt", "audit": "",
}
COMMANDS = (*FILES, "load")
FLAGS = ("--quiet", "--build", "--model", "--recover")


class Options:
    """The arguments of desk/run: folders, commands, flags, and the path of a program."""

    def __init__(self, words, text):
        parser = Parser(text)
        for flag in FLAGS:
            parser.add_argument(flag, action="append_const", const=flag, dest="flags", default=[])
        parser.add_argument("--program", type=Path)
        parser.add_argument("--trace", type=trace_of)
        parser.add_argument("words", nargs="*")
        args = parser.parse_intermixed_args(words)
        self.flags, self.trace = set(args.flags), args.trace
        self.program = args.program and args.program.resolve()
        self.folders, self.commands, left = [], [], args.words
        while left:
            word = left.pop(0)
            if word in COMMANDS and (word != "load" or not self.folders):
                self.commands.append([word, *self.after(word, left)])
            elif self.commands:
                raise Mistake(f"{word!r} is after a command: put folders before it")
            else:
                self.folders.append(word)
        self.commands = self.commands or [["replay"]]
        self.check()

    def after(self, word, left):
        """The word that belongs to a command, if it takes one."""
        if word == "show":
            return [self.next(left, "show", f"the name of a switch{names_in(self.folders)}")]
        return [self.next(left, "load", "a number from 1 to 1000")] if word == "load" else []

    def check(self):
        """That what is asked goes together."""
        names = [name for name, *_ in self.commands]
        who = [flag for flag in ("--build", "--model") if flag in self.flags]
        who += ["--program"] * (self.program is not None)
        if "load" in names and (len(names) > 1 or self.folders):
            raise Mistake("load N takes no folder and no further command")
        if "--quiet" in self.flags and "replay" not in names:
            raise Mistake("--quiet is only for replay")
        if "--recover" in self.flags and names != ["replay"]:
            raise Mistake("--recover is only for replay, without a further command")
        if self.trace and names != ["audit"]:
            raise Mistake("--trace is only for audit, without a further command")
        if len(who) > 1:
            raise Mistake(f"{who[0]} and {who[1]} exclude each other: give one")
        if "" in self.folders:
            raise Mistake("the name of a folder is empty; the current one is .")

    def next(self, left, word, what):
        if not left:
            raise Mistake(f"{word} needs {what}")
        return left.pop(0)


def names_in(folders):
    """The switches of the network in the first folder, in words."""
    try:
        text = (places.folder_of(*folders[:1]) / NET).read_text()
        names = [row["name"] for row in tomllib.loads(text)["switch"]]
        return f": {', '.join(map(str, names[:20]))}"
    except (OSError, ValueError, LookupError, TypeError, Mistake):
        return ""


def trace_of(name):
    """The file at this path, or else that of the examples."""
    path = places.file_of(name)
    if not path.is_file():
        raise Mistake(f"there is no file {name}")
    return path.resolve()


def folder_of(name, at):
    """The folder at this path, or else the example of this name; a later one may be a command."""
    example = places.example_of(name)
    if at and not (example or Path(name).is_dir()):
        raise Mistake(f"{name!r} is no folder, example or command for folders: {', '.join(FILES)}")
    folder = places.folder_of(name)
    if example and example.resolve() != folder.resolve():
        say(f"{name} is the folder here; the example is {example}")
    return folder


def is_example(folder):
    return places.EXAMPLES in folder.resolve().parents


def labels_of(folders):
    """A name for each folder, if there are several: no two are the same, nor one of the kit's."""
    labels = []
    for folder in folders if len(folders) > 1 else []:
        name = folder.resolve().name.replace("=", "-")
        while name in ("", *labels, *runners.KEPT_NAMES):
            name += "-2"
        labels.append(name)
    return labels or [""] * len(folders)


def traced(question, trace):
    """The same audit, of another trace."""
    if trace is None:
        return question
    there = {name: question.folder / name for name in question.files} | {trace.name: trace}
    files = [trace.name, *question.files]
    return question._replace(folder=places.joined(there), files=files, args=["audit", *files])


def question_of(folder, label, command, options):
    """The question that a command asks about a folder."""
    (name, *rest), flags = command, options.flags
    files = list(FILES[name]) + (places.policies_in(folder)[1:] if name in SEVERAL else [])
    files = [file for file in files if file != JOURNAL or options.trace is None]
    absent = [file for file in files if not (folder / file).exists()]
    if absent:
        hint = "; replay makes it, --trace names another" if absent[0] == JOURNAL else ""
        raise Mistake(f"{name} needs the file {folder / absent[0]}, which isn't there{hint}")
    args = [name, *files, *rest]
    if name == "replay" and "--quiet" in flags:
        args.append("--quiet")
    if name != "audit" and (folder / NET).exists():
        files.append(NET)
        args += ["--net", NET]
    for file in files:
        places.check_kind(folder / file)
    question = Question(folder, label, args, files, OUTPUTS[name].format(*rest), folder)
    return traced(question, options.trace)


def questions_of(options):
    """Each command over each folder."""
    if options.commands[0][0] == "load":
        return [Question(runners.TOP, "", options.commands[0], [], "", runners.TOP)]
    folders = [folder_of(name, at) for at, name in enumerate(options.folders)]
    if not folders:
        raise Mistake("put a folder, or the name of an example, before the commands")
    return [
        question_of(folder, label, command, options)
        for folder, label in zip(folders, labels_of(folders))
        for command in options.commands
    ]
