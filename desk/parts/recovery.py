"""A schedule with the recovery rows after it, and the state to which they bring the network.

The rows are a `confirm` of each switch, a `resend` of each switch, and a `flush`.
"""
from .asking import SCHEDULE
from .folder import Case
from .network import DOWN
from .places import joined
from .records import lines_of, records_of
from .table import plural, table

ROWS, JOURNAL = "recovered.csv", "recovered.txt"
BODIES = {
    "cache": "a rule for the cache of {to}", "advert": "the links of {other}, to {to}",
    "install": "the tables of version {version} to {to}", "open": "that {to} may serve",
    "stamp": "that {to} stamps with version {version}",
    "collect": "that {to} drops its tables up to version {version}",
    "installed": "that {switch} has the tables of version {version}",
    "stamped": "that {switch} stamps with version {version}", "hello": "the hello of {switch}",
}


def prepared(question):
    """The same question in a folder of its own, whose schedule has the recovery rows after it."""
    folder = joined({name: question.folder / name for name in question.files})
    schedule = (question.folder / SCHEDULE).read_bytes()
    end = b"" if schedule.endswith(b"\n") else b"\n"
    names = [row["name"] for row in Case(question.folder / JOURNAL, "").net()["switch"]]
    rows = [f"{kind},{name}\n" for kind in ("confirm", "resend") for name in names]
    (folder / ROWS).write_bytes(schedule + end + "".join([*rows, "flush\n"]).encode())
    args = [ROWS if arg == SCHEDULE else arg for arg in question.args]
    files = [ROWS if name == SCHEDULE else name for name in question.files]
    quiet = [] if "--quiet" in args else ["--quiet"]
    return question._replace(folder=folder, args=args + quiet, files=files, output=JOURNAL)


class Report:
    """What the journal of a recovered network says."""

    def __init__(self, question, text):
        (question.folder / JOURNAL).write_text(text)
        self.case = Case(question.folder / JOURNAL, question.home.name)
        self.play, self.lost, self.quiet = self.case.start(), [], ""
        rows = len(list(records_of(lines_of(question.folder / ROWS)))) - 1
        names = self.play.network.switches
        self.last = rows - 2 * len(names) - 1
        for item in self.case.items():
            self.take(item)

    def take(self, item):
        """Follows a line; before the recovery rows, notes which message it loses."""
        if item.kind in ("forgotten", "delivered") and item.row <= self.last:
            self.note(item, self.play.network.message(item))
        if item.kind == "quiet":
            self.quiet = item.said["verdict"]
        self.play.follow(item)

    def note(self, item, message):
        """A message that is forgotten, or that its receiver doesn't obey."""
        if message.delivered is not None:
            return
        fate = "forgotten" if item.kind == "forgotten" else self.unheard(message)
        if fate:
            told = BODIES[message.body].format(**{**message.said, "to": message.switch})
            self.lost.append((message.number, message.sent, told, f"{fate} in row {item.row}"))

    def unheard(self, message):
        """Why the switch that gets a message doesn't obey it, or an empty text."""
        switch = self.play.network.switch(message.switch)
        if message.to == "controller":
            return ""
        if switch.phase == DOWN:
            return f"{message.switch} was down"
        other = message.body not in ("cache", "advert") and message.said["boot"] != switch.boot
        return f"{message.switch} was in another boot" if other else ""

    def lines(self):
        """The report: what was lost, the version, the links and the switches."""
        network = self.play.network
        yield f"lost before the recovery rows: {plural(len(self.lost), 'message')}"
        if self.lost:
            yield from table(["message", "sent in row", "what it said", "lost"], self.lost)
        yield ""
        yield f"after the recovery rows (from row {self.last + 1} on):"
        yield self.version_line(network)
        down = [f"{one} {other}" for one, other in network.links_down]
        yield f"links that are down: {', '.join(down) or 'none'}"
        rows = [
            (name, one.phase, one.boot, one.stamp or "-", spelled(one.tables), len(one.cache))
            for name, one in network.switches.items()
        ]
        heading = ["switch", "state", "boot", "stamps", "tables", "cache rules"]
        yield from table(heading, rows)
        yield f"quiet: {self.quiet}"

    def version_line(self, network):
        """Which version is the current one, and whether it is the newest."""
        newest = len(network.versions)
        current = max(one.number for one in network.versions.values() if one.current is not None)
        retired = [one.number for one in network.versions.values() if one.retired is not None]
        old = f"; those up to {max(retired)} are retired" if retired else ""
        which = "the newest" if current == newest else f"not the newest, {newest}"
        return f"version {current} is current, {which}{old}"


def spelled(versions):
    return " ".join(f"v{version}" for version in sorted(versions)) or "none"
