"""The folder of a journal, and the files beside it."""
from . import agreed
from .journal import read_items
from .mistakes import mistake_of
from .network import CACHE, Network
from .packets import Play
from .places import file_of, folder_of
from .policies import Change, read_policy
from .script import Mistake
from .touched import EVERYTHING, touched_words

import refusals

JOURNAL = "journal.txt"
SOLO = {"switch": [{"name": "s0", "ports": list(range(64)), "authority": 8192}]}


class Case:
    """A journal with the network and the policies in its folder, if they are there."""

    def __init__(self, journal, name):
        self.journal, self.folder, self.name = journal, journal.parent, name
        self.rows = {}  # of the versions, by their numbers

    def title(self):
        """The name of the folder, wherever it is seen from."""
        return self.folder.resolve().name

    def items(self):
        """The items of the journal, one at a time; its rows are those of the schedule."""
        self.schedule, self.seen, self.sent = agreed.schedule_of(self), set(), 0
        for item in read_items(self.journal):
            self.sent += item.kind == "sent"
            if item.kind == "row" and self.schedule is not None:
                agreed.check_row(self, item)
                self.seen.add(item.row)
            yield item
        agreed.check_rows(self)

    def followed(self, play):
        """The items, each as the play has followed it; at the end all has to agree."""
        for item in self.items():
            play.follow(item)
            yield item
        agreed.check(self, play)

    def net(self):
        """What the network's file says; without one, only the switch s0."""
        path = self.folder / "net.toml"
        if not path.is_file():
            return SOLO
        try:
            net = refusals.document(path.read_bytes())
            refusals.check_network(net)
        except refusals.Refusal as why:
            told = f"difane: input net.toml code {why.code} row {why.row}"
            args = ["compile", "policy.csv", "--net", "net.toml"]
            raise mistake_of(self.name, told, args, self.folder) from why
        return net

    def policy_file(self, file):
        """The F-th policy file by the names that desk/run gives it."""
        return self.folder / ("policy.csv" if file == 1 else f"policy{file}.csv")

    def stated(self, file):
        """The rules or the change of the F-th policy file, or None where it isn't there."""
        path = self.policy_file(file)
        return read_policy(path) if path.is_file() else None

    def policy(self, version):
        """The rows of a version, or None where a file that they come from isn't there."""
        if version.number not in self.rows:
            stated = self.stated(version.file)
            is_change = isinstance(stated, Change)
            self.rows[version.number] = self.changed(version, stated) if is_change else stated
        return self.rows[version.number]

    def changed(self, version, change):
        """The rows of a version that a change makes of the one before."""
        path = self.policy_file(version.file)
        if version.before is None:
            raise Mistake(f"{path} is a change, and the first policy is none")
        rows = self.policy(version.before)
        if rows is None:
            return None
        code, _ = change.fault(rows)
        if code:
            raise Mistake(f"{path} can't be applied to version {version.before.number} (code "
                          f"{code}): is it the change that was played?")
        return change.of(rows)

    def touches(self, version):
        """The words that the change of a version touches."""
        stated = self.stated(version.file)
        if not isinstance(stated, Change) or version.before is None:
            return EVERYTHING
        rows = self.policy(version.before)
        return EVERYTHING if rows is None else touched_words(stated, rows)

    def start(self):
        """The network and its packets before the journal's first line."""
        net = self.net()
        names = [row["name"] for row in net["switch"]]
        return Play(Network(names, net.get("cache", CACHE), self.touches))

    def play(self):
        """The whole journal, followed to its end."""
        play = self.start()
        for _ in self.followed(play):
            pass
        return play


def case_of(name):
    """The journal in this file, or in this folder, or in the example of this name."""
    case = inputs_of(name)
    if not case.journal.is_file():
        raise Mistake(f"there is no file {case.journal}, which desk/run can print")
    return case


def inputs_of(name):
    """The same, for questions that need no journal."""
    path = file_of(name)
    return Case(path, str(path.parent)) if path.is_file() else Case(folder_of(name) / JOURNAL, name)
