"""What a journal says of packets, and the version under which each one entered."""
from typing import NamedTuple

from . import flows, tables

LOST, IN_FLIGHT = "lost or still travelling", "looked up by another version"
UNSEEN = "with ports that a switch doesn't see"


class Packet(NamedTuple):
    """A packet of a journal: where and under which version it entered, and how it ended."""

    number: int
    at: str
    header: list
    version: int
    way: list
    end: str | None
    asked: bool
    decided_by: int | None
    rule: str | None
    cached: bool

    def left_out(self):
        """Why the packet isn't sent, or none."""
        if self.end is None:
            return LOST
        if self.decided_by != self.version and (self.asked or self.decided_by):
            return IN_FLIGHT
        return None if flows.is_seen(self.header) else UNSEEN

    def is_as(self, seen):
        """Whether the packet ended so; a cache lets it take another route."""
        same = (self.rule, self.end) == (seen.rule, seen.end)
        return same and (self.cached or self.way == seen.way)


def told_of(case):
    """The play of a journal, in which nothing may fail, and its packets."""
    play, versions, asked, row = case.start(), {}, set(), ""
    for item in case.items():
        play.follow(item)
        if item.kind == "row":
            row = item.text
        elif item.kind == "entered":
            versions[item.said["packet"]] = play.network.switch(item.said["switch"]).stamp
        elif item.kind == "tunnelled":
            asked.add(item.said["packet"])
        elif item.kind == "down" or item.said.get("news") == "down":
            raise tables.Refused(f"{case.folder}: no link or switch may fail, as in {row}")
    packets = play.packets.values()
    return play, [packet_of(one, versions[one.number], one.number in asked) for one in packets]


def packet_of(one, version, asked):
    """The packet of a play."""
    said = one.decision or {}
    ends = {"out": f"out by port {one.port}", "dropped": "dropped", "stuck": f"stuck at {one.at}"}
    return Packet(one.number, one.ingress, [*map(str, one.header.values())], version, one.stood,
                  ends.get(one.end), asked, said.get("version"), said.get("rule"),
                  said.get("by") == "cache")
