"""What a journal says of switches, links, messages and versions, line by line."""
from typing import NamedTuple

from .touched import EVERYTHING, meets

UP, CLOSED, DOWN = "up", "closed", "down"
CACHE = 256  # the rules that a cache takes where the network file doesn't say
MOST_VERSIONS = 64


class Cached(NamedTuple):
    """A cache rule, by its message, and the version under which it is held."""

    version: int
    rule: object


class Switch:
    """A switch: its phase and since which row, its boot, stamp, tables and cache."""

    def __init__(self):
        self.phase, self.since, self.boot = UP, 0, 1
        self.stamp, self.collected = 1, 0
        self.tables, self.cache = {1}, []

    def crash(self, row):
        """It holds nothing any more, until it is opened in a later boot."""
        self.phase, self.since = DOWN, row
        self.stamp = self.collected = 0
        self.tables, self.cache = set(), []

    def boot_again(self, boot, row):
        """It is up, and serves no packets before it is opened."""
        self.phase, self.since, self.boot = CLOSED, row, boot

    def open(self, version, row):
        """It serves, and stamps packets with this version."""
        self.phase, self.since = UP, row
        self.raise_stamp(version)

    def install(self, version):
        """It takes in the tables of a version that it wasn't told to drop."""
        if version > self.collected:
            self.tables.add(version)

    def collect(self, version):
        """It drops its tables of the versions up to this one."""
        self.collected = max(self.collected, version)
        self.tables = {held for held in self.tables if held > self.collected}

    def raise_stamp(self, version):
        """Cache rules of earlier versions go as the stamp rises."""
        if version > self.stamp:
            self.stamp = version
            self.cache = [held for held in self.cache if held.version >= version]

    def carry(self, version, touched):
        """Of the version before, cache rules that meet nothing touched go over."""
        if version > self.stamp:
            own = {held.rule.said["word"] for held in self.cache if held.version == version}
            self.cache = [
                Cached(max(held.version, version), held.rule)
                for held in self.cache
                if held.version >= version
                or held.version == version - 1
                and held.rule.said["word"] not in own
                and not any(meets(held.rule.said["word"], word) for word in touched)
            ]
        self.raise_stamp(version)

    def keep(self, rule, capacity):
        """None below its stamp, and no word of a version twice; a full cache drops its first."""
        said = rule.said
        words = [(held.version, held.rule.said["word"]) for held in self.cache]
        if said["version"] >= self.stamp and (said["version"], said["word"]) not in words:
            self.cache.append(Cached(said["version"], rule))
            del self.cache[: len(self.cache) - capacity]


class Message:
    """A message: what it says, and the rows that sent it, first delivered it and forgot it.

    `packet`, of a cache rule, was decided as it was sent; `boot` is that of its switch then."""

    def __init__(self, item):
        self.said, self.body = item.said, item.said["body"]
        self.number, self.switch = item.said["message"], item.said["switch"]
        self.to = item.said.get("to", self.switch)
        self.sent = item.row
        self.delivered = self.forgotten = self.packet = self.boot = None


class Version:
    """A version of the policy: its file, the one before it or None, the rows that changed it."""

    def __init__(self, number, file, row, before):
        self.number, self.file, self.submitted, self.before = number, file, row, before
        self.current = self.retired = None


class Network:
    """The network as the journal tells it; its names and the room of a cache are the file's.

    Without its policies the change of a version touches everything."""

    def __init__(self, names=(), capacity=CACHE, touches=lambda version: EVERYTHING):
        self.switches = {name: Switch() for name in names}
        self.capacity, self.touches = capacity, touches
        self.links_down, self.messages, self.over = {}, {}, set()
        self.versions, self.refused = {}, []
        self.add_version(1, 1, 0)
        self.versions[1].current = 0

    def add_version(self, number, file, row):
        self.versions[number] = Version(number, file, row, self.versions.get(number - 1))

    def switch(self, name):
        """The switch of this name; one that no file names begins as all do."""
        return self.switches.setdefault(name, Switch())

    def message(self, item):
        """The message that the item names."""
        number = item.said["message"]
        if number not in self.messages:
            raise item.mistake(f"no line sent the message {number}")
        return self.messages[number]

    def version(self, item):
        """The version that the item names."""
        number = item.said["version"]
        if number not in self.versions:
            raise item.mistake(f"no line submitted version {number}")
        return self.versions[number]

    def follow(self, item):
        """Does what the item says; the name of the switch that it changed, if any."""
        act = ACTS.get(item.kind)
        return act(self, item) if act else None

    def on_sent(self, item):
        """An acknowledgement says that its switch did what it was told."""
        message, due = Message(item), len(self.messages) + 1
        if message.number != due:
            raise item.mistake(f"message {due} would be next")
        self.messages[due], message.boot = message, self.switch(message.switch).boot
        if message.body == "installed":
            self.switch(message.switch).install(item.said["version"])
        elif message.body == "stamped":
            version = self.versions.get(item.said["version"])
            touched = self.touches(version) if version else EVERYTHING
            self.switch(message.switch).carry(item.said["version"], touched)
        else:
            return None
        return message.switch

    def on_delivered(self, item):
        """Cache rules and collects are obeyed without a line of their own."""
        message = self.message(item)
        if message.delivered is None:
            message.delivered = item.row
        switch = self.switch(message.switch)
        if switch.phase == DOWN:
            return None
        if message.body == "cache":
            switch.keep(message, self.capacity)
        elif message.body == "collect" and message.said["boot"] == switch.boot:
            switch.collect(message.said["version"])
        else:
            return None
        return message.switch

    def on_forgotten(self, item):
        self.message(item).forgotten = item.row

    def on_expired(self, item):
        switch = self.switch(item.said["switch"])
        gone = item.said["message"]
        switch.cache = [held for held in switch.cache if held.rule.number != gone]
        return item.said["switch"]

    def on_link(self, item):
        ends = item.said["switch"], item.said["other"]
        if item.said["news"] == "down":
            self.links_down[ends] = item.row
        else:
            self.links_down.pop(ends, None)

    def on_down(self, item):
        self.switch(item.said["switch"]).crash(item.row)
        return item.said["switch"]

    def on_booted(self, item):
        self.over.discard(item.said["switch"])
        self.switch(item.said["switch"]).boot_again(item.said["boot"], item.row)
        return item.said["switch"]

    def on_opened(self, item):
        self.switch(item.said["switch"]).open(item.said["version"], item.row)
        return item.said["switch"]

    def on_over(self, item):
        self.over.add(item.said["switch"])

    def on_submitted(self, item):
        if item.said["version"] != len(self.versions) + 1:
            raise item.mistake(f"version {len(self.versions) + 1} would be next")
        if len(self.versions) == MOST_VERSIONS:
            raise item.mistake(f"there are at most {MOST_VERSIONS} versions")
        self.add_version(item.said["version"], item.said["file"], item.row)

    def on_refused(self, item):
        """It is kept with the newest version, to which a change would be applied."""
        self.refused.append((item, self.versions[len(self.versions)]))

    def on_current(self, item):
        self.mark(item, "current")

    def on_retired(self, item):
        self.mark(item, "retired")

    def mark(self, item, name):
        """Notes the row for each version up to the item's that has none."""
        for version in self.versions.values():
            if version.number <= item.said["version"] and getattr(version, name) is None:
                setattr(version, name, item.row)

    def unusable(self, ends=None):
        """The links and switches that can't be used, each in words, since which row.

        Where two ends are given, only those that keep packets from the link between them.
        """
        words = {DOWN: "down", CLOSED: "not yet opened"}
        links = [
            f"link {one} {other} down since row {row}"
            for (one, other), row in self.links_down.items()
            if ends is None or {one, other} == set(ends)
        ]
        return links + [
            f"switch {name} {words[switch.phase]} since row {switch.since}"
            for name, switch in self.switches.items()
            if switch.phase != UP and (ends is None or name in ends)
        ]


ACTS = {name.removeprefix("on_"): act for name, act in vars(Network).items() if name[:3] == "on_"}
