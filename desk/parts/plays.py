"""Plays schedules over the policies and the network of a folder, by a program or the slow model."""
import subprocess
import sys
from pathlib import Path

from . import runners
from .folder import Case
from .mistakes import mistake_of
from .places import check_kind, folder_of, joined, policies_in
from .records import lines_of, records_of
from .row_mistakes import SCHEDULE_HEADING
from .script import Mistake, Parser

import refusals
import row_states
import slow_replay

SCHEDULE, NET, JOURNAL, MOST_ROWS = "schedule.csv", "net.toml", "journal.txt", 100_000
SAYS = {True: "by the program", False: "by the slow model, of which nothing is proved"}


def parser_of(text):
    """The parser of a script that plays: its folder, who plays, and the form of what it prints."""
    parser = Parser(text, "FOLDER")
    parser.add_argument("--program", type=Path)
    for flag in ("--model", "--json"):
        parser.add_argument(flag, action="store_true")
    return parser


def program_of(args):
    """The program that is to play, or None for the slow model."""
    if args.program and (args.model or not args.program.is_file()):
        raise Mistake(f"{args.program} is not a program, or --model is given too")
    return args.program.resolve() if args.program else None if args.model else proved()


def proved():
    """The proved program where it is there, or None."""
    return runners.PROVED if runners.PROVED.is_file() else None


class Player:
    """The policies and the network of a folder, over which schedules are played."""

    def __init__(self, name, program):
        self.name, self.source, self.program = name, folder_of(name), program
        self.policies = policies_in(self.source)
        if not self.policies:
            raise Mistake(f"there is no file {self.source / 'policy.csv'}")
        self.files = self.policies + [NET] * (self.source / NET).exists()
        for file in self.files:
            check_kind(self.source / file)
        self.folder = joined({file: self.source / file for file in self.files})
        keep_plans()
        self.check([])

    def net(self):
        """What the network's file says, or the network of one switch."""
        return Case(self.folder / JOURNAL, self.name).net()

    def own_rows(self):
        """The rows of the folder's schedule, which is looked at first."""
        path = self.source / SCHEDULE
        if not path.is_file():
            raise Mistake(f"there is no file {path}")
        (self.folder / SCHEDULE).unlink(missing_ok=True)
        (self.folder / SCHEDULE).symlink_to(path.resolve())
        self.refuse_wrong_files()
        return [record.fields for record in records_of(lines_of(path))][1:]

    def check_rows(self, rows):
        """That a schedule of these rows isn't too long."""
        if len(rows) > MOST_ROWS:
            raise Mistake(f"{self.name}: the schedule would have {len(rows):,} rows, and 100,000 "
                          "are the most")

    def check(self, rows):
        """Writes a schedule; that it can be played over the files of the folder."""
        self.check_rows(rows)
        (self.folder / SCHEDULE).unlink(missing_ok=True)
        with open(self.folder / SCHEDULE, "w", newline="", encoding="utf-8") as file:
            file.write(schedule_text(rows))
        self.refuse_wrong_files()

    def refuse_wrong_files(self):
        """What the program would refuse is told in one line."""
        told, _ = refusals.answer(self.arguments(), self.folder)
        if told:
            raise mistake_of(self.name, told, self.arguments(), self.folder)

    def arguments(self):
        """Those of the program."""
        return ["replay", SCHEDULE, *self.policies] + ["--net", NET] * (NET in self.files)

    def case(self, rows):
        """The journal of these rows, which are written as a schedule where a program plays them; else
        none is beside it."""
        text = self.by_program(rows) if self.program else self.by_model(rows)
        if not self.program:
            (self.folder / SCHEDULE).unlink(missing_ok=True)
        (self.folder / JOURNAL).write_text(text, encoding="utf-8")
        return Case(self.folder / JOURNAL, self.name)

    def by_program(self, rows):
        self.check(rows)
        command = [str(self.program), *self.arguments()]
        pipes = {"capture_output": True, "stdin": subprocess.DEVNULL}
        done = subprocess.run(command, cwd=self.folder, text=True, errors="replace", **pipes)
        if done.returncode:
            lines = done.stderr.splitlines() or [f"status {done.returncode}"]
            raise Mistake(f"{self.name}: the program ends with {lines[0]!r}")
        return done.stdout

    def by_model(self, rows):
        net = self.folder / NET if NET in self.files else None
        world = row_states.world_of(net, [self.folder / name for name in self.policies])
        world.play(rows)
        if len(world.journal.messages) >= runners.MANY_MESSAGES:
            raise Mistake(f"{self.name}: too many messages for the slow model; use a program")
        lines = [*world.journal.lines, *world.journal.meter_lines()]
        return "".join(f"{line}\n" for line in lines)


def schedule_text(rows):
    """Rows as a schedule; no field of a row needs quotes."""
    return "".join(f"{line}\n" for line in [SCHEDULE_HEADING, *map(",".join, rows)])


def keep_plans():
    """Lets the slow model work out each plan once, however many schedules are played."""
    make, kept = slow_replay.Plan, {}

    def plan(rows, net):
        key = str((rows, net))
        if key not in kept:
            kept[key] = make(rows, net)
        return kept[key]

    slow_replay.Plan = plan


def say(script, player):
    """Says who plays."""
    print(f"{script}: {SAYS[player.program is not None]}", file=sys.stderr, flush=True)
