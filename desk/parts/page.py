"""The page of desk/view: what it shows of a journal, and its text.

The page draws no conclusions of its own. What a line changes is worked out here: its script sets
each changed thing to its new value, up to the row of the slider.
"""
import json
from pathlib import Path

from . import agreed
from .layout import placed
from .lines import HALF_HIGH, arrow_of, half_wide, lines_of
from .packets import ENDS
from .words import spelled

MARKED = {"update": "update", "crash": "switch", "restart": "switch", "linkdown": "link",
          "linkup": "link"}
HERE = Path(__file__).resolve().parent
PARTS = {"STYLE": ["page.css"], "SCRIPT": ["page.js", "packets.js"]}


class Record:
    """What the page shows, gathered line by line."""

    def __init__(self, case):
        net = case.net()
        self.play = case.start()
        self.names = [row["name"] for row in net["switch"]]
        self.links = [tuple(link["ends"]) for link in net.get("link", [])]
        self.lines, self.rows, self.changes, self.marks = [], [], [], []
        self.told, self.hops, self.matches, self.shown = {}, {}, {}, {}
        for name in self.names:
            self.show_switch(0, name)

    def number(self, name, item):
        """The number of a switch, which the network's file must have."""
        if name not in self.names:
            raise item.mistake(f"the network has no switch {name}")
        return self.names.index(name)

    def take(self, item):
        """Follows a line, and notes what it changes."""
        changed = self.play.follow(item)
        self.lines.append(item.text if item.row == 0 or item.kind == "row" else "  " + item.text)
        if item.row:
            self.end_row(item)
        if item.kind == "row" and item.said["event"] in MARKED:
            self.marks.append([item.row, MARKED[item.said["event"]], item.text])
        if changed:
            self.number(changed, item)
            self.show_switch(item.line, changed)
        note = NOTES.get(item.kind)
        if note:
            note(self, item)
        self.tell(item)

    def end_row(self, item):
        """Notes that the row of this line ends here, as long as no further line of it comes."""
        if self.rows and self.rows[-1][0] == item.row:
            self.rows.pop()
        self.rows.append([item.row, item.line])

    def change(self, line, what, *values):
        self.changes.append([line, what, *values])

    def show_switch(self, line, name):
        """Notes the state of a switch, if it is another one than before."""
        switch = self.play.network.switches[name]
        tables = " ".join(f"v{version}" for version in sorted(switch.tables)) or "none"
        state = [switch.phase, switch.boot, switch.stamp, tables, len(switch.cache)]
        if self.shown.get(name) != state:
            self.shown[name] = state
            self.change(line, "switch", self.names.index(name), state)

    def tell(self, item):
        """Notes that the line tells of a packet, or of its cache rule."""
        packet = self.play.about(item)
        if packet is not None:
            before = [item.line - 1] if item.kind in ("entered", "closed") else []
            self.told.setdefault(packet, []).extend([*before, item.line])

    def on_link(self, item):
        ends = item.said["switch"], item.said["other"]
        known = [link for link in self.links if set(link) == set(ends)]
        if not known:
            raise item.mistake("the network has no such link")
        self.change(item.line, "link", self.links.index(known[0]), item.said["news"])

    def on_sent(self, item):
        message = self.play.network.message(item)
        self.change(item.line, "sent", message.number, message.body)
        if message.body == "cache":
            self.matches[message.number] = spelled(item.said["word"])

    def on_delivered(self, item):
        self.change(item.line, "done", item.said["message"])

    on_forgotten = on_delivered

    def on_closed(self, item):
        self.number(item.said["switch"], item)

    def on_entered(self, item):
        switch = self.number(item.said["switch"], item)
        self.change(item.line, "at", item.said["packet"], switch)

    on_hopped = on_entered

    def on_decided(self, item):
        packet = item.said["packet"]
        self.hops[packet] = len(self.play.packet(item).stood) - 1

    def on_out(self, item):
        self.change(item.line, "gone", item.said["packet"])

    on_dropped = on_lost = on_stuck = on_out

    def packet(self, packet):
        """A packet as the page has it."""
        said = packet.decision or {}
        return {
            "number": packet.number,
            "row": packet.row,
            "header": list(packet.header.values()),
            "in": packet.ingress,
            "version": said.get("version", 0),
            "rule": said.get("rule", ""),
            "action": said.get("action", ""),
            "by": f"{said.get('by', '')} {said.get('message') or said.get('switch', '')}".strip(),
            "end": packet.end,
            "port": packet.port,
            "cause": packet.cause,
            "endRow": packet.end_row,
            "stood": [self.names.index(name) for name in packet.stood],
            "tunnelHops": self.hops.get(packet.number, len(packet.stood) - 1),
            "lines": self.told[packet.number],
        }


NOTES = {name.removeprefix("on_"): act for name, act in vars(Record).items() if name[:3] == "on_"}


def rules_of(case, network):
    """For each version the rows of its policy, by their priorities, as far as it is there."""
    return {
        version.number: {rule.priority: rule.text() for rule in case.policy(version) or []}
        for version in network.versions.values()
    }


def links_of(record, at):
    """The links: their ends, their lines, and the arrows along them in both directions."""
    half = half_wide(record.names)
    for ends, line in lines_of(at, record.links).items():
        arrows = arrow_of(line, half), arrow_of(line[::-1], half)
        points = [[[round(k, 1) for k in point] for point in one] for one in (line, *arrows)]
        yield [*map(record.names.index, ends), *points]


def data_of(case):
    """All that the page shows of the case."""
    net, record = case.net(), Record(case)
    for item in case.items():
        record.take(item)
    agreed.check_network(case, record.play)
    agreed.check(case, record.play)
    ports = {row["name"]: row.get("ports", []) for row in net["switch"]}
    at, size = placed(record.names, record.links, {name for name in ports if ports[name]})
    return {
        "name": case.title(),
        "size": size,
        "switches": [
            {"name": name, "at": at[name], "ports": ports[name], "room": row.get("authority", 0)}
            for name, row in zip(record.names, net["switch"])
        ],
        "box": [half_wide(record.names), HALF_HIGH],
        "links": list(links_of(record, at)),
        "lines": "\n".join(record.lines),
        "rows": record.rows,
        "marks": record.marks,
        "changes": record.changes,
        "packets": [record.packet(packet) for packet in record.play.packets.values()],
        "matches": record.matches,
        "rules": rules_of(case, record.play.network),
        "ends": ENDS,
    }


def page_of(case):
    """The text of the page: one file, which asks nothing of a network."""
    data = json.dumps(data_of(case), separators=(",", ":")).replace("<", "\\u003c")
    text = (HERE / "page.html").read_text(encoding="utf-8")
    for mark, files in PARTS.items():
        parts = ((HERE / file).read_text(encoding="utf-8") for file in files)
        text = text.replace(f"[[{mark}]]", "".join(parts))
    return text.replace("[[DATA]]", data)
