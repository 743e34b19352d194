#!/usr/bin/env python3
"""What `difane` says of arguments and files that it refuses, computed from docs/FORMATS.md.

usage: model/refusals.py ARGUMENTS

The arguments are those of the program. It prints the line that the program writes on standard error
and ends with its status, 1 to 4; if nothing is refused it prints nothing and ends with 0. It
shares nothing with the program: records are those of Python's `csv`, documents those of `tomllib`,
plans those of `model/slow_replay.py`, and verdicts on traces those of `model/slow_audit.py`. What
TOML 1.1 added to 1.0 it refuses.
"""
import csv
import io
import re
import sys
import tomllib
from pathlib import Path

import slow_audit
import slow_replay

WORDS = "difane: words"
MOST_BYTES, MOST_POLICIES, MOST_LOAD = 16_777_216, 64, 1000
MOST_TRACE = 268_435_456
POLICY_HEADING = ["priority", "src", "dst", "sport", "dport", "proto", "action"]
CHANGE_HEADING = ["op", *POLICY_HEADING]
PLAYS = "replay", "flows", "rebalance"
SEVERAL = *PLAYS, "audit"
MOST_ROWS, MOST_EVENTS, MOST_NUMBER = 2000, 100_000, 999_999_999
NO_SWITCH, TOO_LARGE = 21, 20
NO_EDIT, FIRST_CHANGE = 22, 23
# The fields after each kind of a schedule's rows: a switch, a number, a file; a link is two.
KINDS = {
    "packet": "SH", "hop": "N", "lose": "N", "deliver": "N", "forget": "N", "expire": "SN",
    "update": "F", "linkdown": "L", "linkup": "L", "crash": "S", "restart": "S", "confirm": "S",
    "resend": "S", "flush": "", "drain": "",
}
WIDTHS = {"H": 5, "L": 2}
KEYS = {"leaf_rules": (1, 8192), "backups": (0, 3), "cache": (0, 65536)}
MOST_SWITCHES, MOST_LINKS, LINK_ROWS = 64, 256, 100

csv.field_size_limit(MOST_BYTES + 1)


class Refusal(Exception):
    """A file is refused with a code and a row."""

    def __init__(self, code, row=0):
        super().__init__(code, row)
        self.code, self.row = code, row


class ReadFault(Exception):
    """A file is there, and can't be read."""


# Fields.


def is_number(text, least, most):
    """Whether the text is such a number; of more than ten digits none is."""
    return re.fullmatch("0|[1-9][0-9]{0,9}", text) is not None and least <= int(text) <= most


def is_address(text):
    parts = text.split(".")
    return len(parts) == 4 and all(is_number(part, 0, 255) for part in parts)


def is_prefix(text):
    base, slash, length = text.partition("/")
    return text == "any" or is_address(base) and (not slash or is_number(length, 0, 32))


def is_port(text):
    return is_number(text, 0, 65535)


def is_range(text):
    low, dash, high = text.partition("-")
    both = is_port(low) and (not dash or is_port(high) and int(low) <= int(high))
    return text == "any" or both


def is_protocol(text):
    return text in ("icmp", "tcp", "udp") or is_number(text, 0, 255)


def is_action(text):
    return text == "drop" or text[:4] == "out:" and is_number(text[4:], 0, 63)


POLICY_FIELDS = [
    lambda text: is_number(text, 0, 4294967295), is_prefix, is_prefix, is_range, is_range,
    lambda text: text == "any" or is_protocol(text), is_action,
]
HEADER_FIELDS = [is_address, is_address, is_port, is_port, is_protocol]


# Files.


def content(path, most=MOST_BYTES):
    """The bytes of a file."""
    try:
        with open(path, "rb") as file:
            found = file.read(most + 1)
    except FileNotFoundError as error:
        raise Refusal(0) from error
    except OSError as error:
        raise ReadFault from error
    if len(found) > most:
        raise Refusal(TOO_LARGE)
    return found


def records(found):
    """The records of a CSV text; blank lines are none."""
    text = found.removeprefix(b"\xef\xbb\xbf").decode("latin-1")
    return [record for record in csv.reader(io.StringIO(text, newline="")) if record]


def check_fields(fields, row):
    """The fields of a policy's row."""
    for place, is_read in enumerate(POLICY_FIELDS):
        if not is_read(fields[place]):
            raise Refusal(3 + place, row)


def check_policy_row(fields, row):
    """A row of a policy; what no later row may say again, and the row's action."""
    if len(fields) != len(POLICY_FIELDS):
        raise Refusal(2, row)
    check_fields(fields, row)
    return fields[0], fields[6]


def check_edit(fields, row):
    """A row of a change; what no later row may say again, and the action of a row that is added."""
    op, *left = fields
    if op not in ("add", "remove"):
        raise Refusal(NO_EDIT, row)
    if len(left) != (len(POLICY_FIELDS) if op == "add" else 1):
        raise Refusal(2, row)
    if op == "add":
        check_fields(left, row)
    elif not POLICY_FIELDS[0](left[0]):
        raise Refusal(3, row)
    return (op, left[0]), left[-1] if op == "add" else "drop"


def check_policy(rows, ports):
    """Each row of a policy or of a change, and then the ports of the actions."""
    check = {tuple(POLICY_HEADING): check_policy_row, tuple(CHANGE_HEADING): check_edit}
    if not rows or tuple(rows[0]) not in check:
        raise Refusal(1)
    seen, actions = set(), []
    for row, fields in enumerate(rows[1:], 1):
        if row > MOST_ROWS:
            raise Refusal(11, row)
        own, action = check[tuple(rows[0])](fields, row)
        if own in seen:
            raise Refusal(10, row)
        seen.add(own)
        actions.append(action)
    for row, action in enumerate(actions, 1):
        if action != "drop" and int(action[4:]) not in ports:
            raise Refusal(13, row)


def check_row(fields, row, network, files):
    """A row of a schedule: its kind, its width, and its fields from left to right."""
    if fields[0] not in KINDS:
        raise Refusal(3, row)
    shape = KINDS[fields[0]]
    if len(fields) != 1 + sum(WIDTHS.get(what, 1) for what in shape):
        raise Refusal(2, row)
    left = fields[1:]
    for what in shape:
        one, *left = left
        if what in "SL" and one not in network.names:
            raise Refusal(4, row)
        if what == "N" and not is_number(one, 0, MOST_NUMBER):
            raise Refusal(5, row)
        if what == "F" and not is_number(one, 1, files):
            raise Refusal(7, row)
        if what == "H" and not all(is_read(t) for is_read, t in zip(HEADER_FIELDS, [one, *left])):
            raise Refusal(6, row)
        if what == "L":
            check_link(one, left[0], row, network)


def check_link(one, other, row, network):
    """The second end of a link, and that the link is there."""
    if other not in network.names:
        raise Refusal(4, row)
    if slow_replay.link(*map(network.names.index, (one, other))) not in network.links:
        raise Refusal(9, row)


def check_schedule(rows, network, files):
    if not rows or rows[0] != ["event", "arguments"]:
        raise Refusal(1)
    for row, fields in enumerate(rows[1:], 1):
        if row > MOST_EVENTS:
            raise Refusal(8, row)
        check_row(fields, row, network, files)


# Networks.


def check_integer(value, least, most, row):
    if type(value) is not int:
        raise Refusal(3, row)
    if not least <= value <= most:
        raise Refusal(4, row)


def array_at(table, key, row=0):
    """The array at a key, or an empty one where there is no key."""
    if not isinstance(table.get(key, []), list):
        raise Refusal(3, row)
    return table.get(key, [])


def check_switch(switch, row):
    """The keys of a switch, but for what earlier switches have."""
    if not isinstance(switch, dict):
        raise Refusal(3, row)
    if "name" not in switch:
        raise Refusal(2, row)
    name = switch["name"]
    if not isinstance(name, str):
        raise Refusal(3, row)
    if not re.fullmatch("[A-Za-z][A-Za-z0-9_-]{0,15}", name) or name == "controller":
        raise Refusal(4, row)
    ports = array_at(switch, "ports", row)
    if any(type(port) is not int for port in ports):
        raise Refusal(3, row)
    if any(not 0 <= port <= 63 for port in ports):
        raise Refusal(4, row)
    check_integer(switch.get("authority", 0), 0, 8192, row)


def check_switches(switches):
    names, ports = set(), set()
    for row, switch in enumerate(switches, 1):
        check_switch(switch, row)
        if switch["name"] in names:
            raise Refusal(6, row)
        names.add(switch["name"])
        own = switch.get("ports", [])
        if len({*own}) < len(own) or ports & {*own}:
            raise Refusal(7, row)
        ports |= {*own}
    return names


def check_ends(link, names, seen, row):
    """A link, after the links that were seen."""
    if not isinstance(link, dict):
        raise Refusal(3, row)
    if "ends" not in link:
        raise Refusal(2, row)
    ends = array_at(link, "ends", row)
    if len(ends) != 2 or not all(isinstance(end, str) for end in ends):
        raise Refusal(3, row)
    if not names.issuperset(ends):
        raise Refusal(5, row)
    if ends[0] == ends[1]:
        raise Refusal(8, row)
    if frozenset(ends) in seen:
        raise Refusal(9, row)
    seen.add(frozenset(ends))


def integers(value):
    """All integers of a document."""
    if isinstance(value, (dict, list)):
        for one in value.values() if isinstance(value, dict) else value:
            yield from integers(one)
    elif type(value) is int:
        yield value


def document(found):
    """The document of these bytes; an integer that doesn't fit 64 bits is none of TOML's."""
    try:
        net = tomllib.loads(found.removeprefix(b"\xef\xbb\xbf").decode())
    except ValueError as error:
        raise Refusal(1) from error
    if any(not -(2**63) <= number < 2**63 for number in integers(net)):
        raise Refusal(1)
    return net


def check_network(net):
    """The checks of a document in their order."""
    for key, (least, most) in KEYS.items():
        if key in net:
            check_integer(net[key], least, most, 0)
    if "switch" not in net:
        raise Refusal(2)
    switches = array_at(net, "switch")
    if not switches:
        raise Refusal(4)
    if len(switches) > MOST_SWITCHES:
        raise Refusal(10)
    names = check_switches(switches)
    links = array_at(net, "link")
    if len(links) > MOST_LINKS:
        raise Refusal(10)
    seen = set()
    for row, link in enumerate(links, LINK_ROWS + 1):
        check_ends(link, names, seen, row)


def check_plan(rows, net):
    """That a policy of these rows has a plan; where a partition has no room, its number is the
    row."""
    try:
        slow_replay.Plan(rows, net)
    except slow_replay.Refused as refused:
        said = re.search(r"\d+", str(refused.__cause__ or ""))
        raise Refusal(refused.code, int(said[0]) if said else 0) from refused


# Commands.


class Line:
    """The arguments after a command: names, a network, and whether `--quiet` is there."""

    def __init__(self, args):
        self.names, self.net, self.quiet = [], None, False
        left, ended = list(args), False
        while left:
            arg = left.pop(0)
            if arg == "--quiet" and not self.quiet:
                self.quiet, ended = True, bool(self.names)
            elif arg.startswith("--net=") and self.net is None:
                self.net, ended = arg.removeprefix("--net="), bool(self.names)
            elif arg == "--net" and self.net is None and left:
                self.net, ended = left.pop(0), bool(self.names)
            elif ended or not is_name(arg):
                raise ValueError(arg)
            else:
                self.names.append(arg)
        if self.net is not None and not is_name(self.net):
            raise ValueError(self.net)


def is_name(arg):
    return arg != "" and not arg.startswith("-")


def takes(command, line):
    """Whether the line is one of this command."""
    count = len(line.names)
    plain = line.net is None and not line.quiet
    if command == "load":
        return plain and count == 1 and is_number(line.names[0], 1, MOST_LOAD)
    if command == "audit":
        return plain and 2 <= count <= 1 + MOST_POLICIES
    if command in PLAYS:
        return 2 <= count <= 1 + MOST_POLICIES and not (line.quiet and command != "replay")
    return count == {"compile": 1, "show": 2}.get(command) and not line.quiet


class Files:
    """The files of a command, checked one after another; `name` is the one that is looked at."""

    def __init__(self, folder):
        self.folder, self.name = folder, ""

    def read(self, name, most=MOST_BYTES):
        self.name = name
        return content(self.folder / name, most)

    def network(self, name):
        net = slow_replay.SOLO
        if name is not None:
            net = document(self.read(name))
            check_network(net)
        return slow_replay.Network(net)

    def policy(self, name, network, change):
        """A file of a policy; of a change too, unless that is refused with the code `change`."""
        rows = records(self.read(name))
        if change is not None and rows and rows[0] == CHANGE_HEADING:
            raise Refusal(change)
        check_policy(rows, network.owner.keys())
        return rows[1:]

    def plan(self, name, rows, network):
        self.name = name
        check_plan(rows, network.net)

    def check(self, command, line):
        """All that the command reads, in its order."""
        network = self.network(line.net)
        policies = line.names[1:] if command in SEVERAL else line.names[:1]
        if command == "show":
            self.name = line.names[1]
            if self.name not in network.names:
                raise Refusal(NO_SWITCH)
        if command in PLAYS:
            check_schedule(records(self.read(line.names[0])), network, len(policies))
        if command == "audit":
            self.read(line.names[0], MOST_TRACE)
        first = self.policy(policies[0], network, FIRST_CHANGE if command in SEVERAL else 1)
        for name in policies[1:]:
            self.policy(name, network, None)
        if command != "audit":
            self.plan(policies[0], first, network)


def answer(args, folder=Path()):
    """The line that the program says, and its status: an empty one and 0 where it does its work."""
    command, *rest = args or [""]
    try:
        line = Line(rest)
    except ValueError:
        return WORDS, 2
    if not takes(command, line):
        return WORDS, 2
    files = Files(folder)
    try:
        if command != "load":
            files.check(command, line)
    except Refusal as refusal:
        return f"difane: input {files.name} code {refusal.code} row {refusal.row}", 3
    except ReadFault:
        return "difane: read fault", 4
    if command == "audit":
        bad = slow_audit.answer(*(folder / name for name in line.names))
        return bad, int(bad != "")
    return "", 0


def main():
    line, status = answer(sys.argv[1:])
    if line:
        print(line, file=sys.stderr)
    sys.exit(status)


if __name__ == "__main__":
    main()
