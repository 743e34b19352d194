"""What the program was asked: its arguments as files, and what the network's file says of them."""
import re
import tomllib
from difflib import get_close_matches

from . import fields, places  # places puts the model on the path
from .cautions import network_cautions
from .records import lines_of, record_at
from .row_mistakes import CHANGE_HEADING, EDIT_FORMS, SCHEDULE_HEADING

import refusals

MOST_ROOM = 8192


class Asked:
    """The arguments of the program as files: names, their folder, and the network."""

    def __init__(self, args, folder):
        line = refusals.Line(args[1:])
        self.folder, self.net_name, self.names = folder, line.net, line.names
        self.schedule = self.names[0] if args[0] in refusals.PLAYS else None
        self.policies = self.names[1:] if args[0] in refusals.SEVERAL else self.names[:1]

    def path(self, name):
        return self.folder / name

    def role(self, name, code):
        """Whether the name is that of the network, of the schedule, of a policy or of a change."""
        if name == self.net_name:
            return "network"
        if name == self.schedule and not (code == 1 and self.heading(name) == SCHEDULE_HEADING):
            return "schedule"
        if code == 1:
            is_change = name not in self.policies[:1] and self.is_meant_as_change(name)
        else:
            is_change = self.heading(name) == CHANGE_HEADING
        return "change" if is_change else "policy"

    def heading(self, name):
        """The first record of a file, or an empty text where it has none or isn't there."""
        record = record_at(self.path(name), 0) if self.path(name).is_file() else None
        return "" if record is None else ",".join(record.fields)

    def is_meant_as_change(self, name):
        """Whether a first record is nearly the heading of a change, or is one of its rows."""
        columns = [re.sub(r"[\s\"']", "", text) for text in re.split("[,;\t]", self.heading(name))]
        first, *left = [column.lower() for column in columns]
        return first in ("op", *EDIT_FORMS) or left[:1] == ["priority"]

    def network(self):
        """What the network's file says, or an empty document where it can't be read."""
        if self.net_name is None:
            return {"switch": [{"name": "s0", "ports": list(range(64)), "authority": MOST_ROOM}]}
        try:
            return tomllib.loads("".join(lines_of(self.path(self.net_name))))
        except (OSError, ValueError):
            return {}

    def switches(self):
        return [row for row in self.network().get("switch", []) if isinstance(row, dict)]

    def switch_names(self):
        return [row["name"] for row in self.switches() if isinstance(row.get("name"), str)]

    def said_network(self):
        if self.net_name is not None and not self.network():
            return f"{self.net_name}, which Python's reader of TOML 1.0 can't read"
        return self.net_name or "the network of one switch s0, since no network file is named"


def network_hints(asked):
    """What is ignored in the network's file."""
    if asked.net_name is not None:
        yield from network_cautions(lines_of(asked.path(asked.net_name)), asked.net_name)


def names_hint(asked, absent):
    """The names that there are, and what to look at."""
    names = asked.switch_names()
    bare = absent.strip()
    alike = [name for name in names if name.lower() == bare.lower()]
    if alike and bare != absent:
        yield f"{fields.looks(absent)}: write {alike[0]}"
    elif alike:
        yield f"capitals count in names: write {alike[0]}"
    elif near := get_close_matches(absent, names, 1):
        yield f"perhaps {near[0]}"
    said = f": its switches are {', '.join(names[:20])}" if names else ""
    yield f"look at {asked.said_network()}{said}"
    yield from forgotten_network(asked)


def forgotten_network(asked):
    """The files beside the schedule that may be the network."""
    if asked.net_name is None:
        found = sorted(file.name for file in asked.folder.glob("*.toml"))
        if "net.toml" in found:
            yield "net.toml is there, and isn't named: add --net net.toml"
        elif found:
            yield f"desk/run takes net.toml, --net takes any name: there is {found[0]}"
