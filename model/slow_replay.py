#!/usr/bin/env python3
"""The output of `replay`, computed independently from its definitions and slowly.

usage: model/slow_replay.py SCHEDULE POLICY.. [--net NET] [--quiet | --flows]

A POLICY after the first may be a change: rows to remove and to add. With `--flows` it is the output
of `flows`.

It shares nothing with the program: the plans are those of `model/plan_model.py`, and all that
happens is written from the definitions in words, in sets and lists. `model/fuzz.py` compares it
with the program. It reads only accepted files, and ends with 3 if the first policy has no plan.
"""
import csv
import sys
import tomllib
from collections import Counter
from typing import NamedTuple

import plan_model

SOLO = {**plan_model.SOLO, "switch": [{"name": "s0", "authority": 8192, "ports": range(64)}]}
EXACT = 2**plan_model.BITS - 1
MOST_ROWS, MOST_WORDS, MOST_PARTS, MOST_LIVE, MOST_VERSIONS = 2000, 4096, 512, 8, 64
TOO_MANY_WORDS, TOO_MANY_PARTS, NO_ROOM, TOO_MANY_LIVE, TOO_MANY_VERSIONS = 12, 14, 15, 16, 17
ABSENT, TAKEN, TOO_MANY_ROWS = 24, 25, 26
MOST_HEADERS = 4096
MOST_TOUCHED = 16
CHANGE_HEADING = ["op", "priority", "src", "dst", "sport", "dport", "proto", "action"]


# Words: a value and a mask; the bits that the mask leaves out are free.


def holds(word, header):
    return (header ^ word[0]) & word[1] == 0


def covers(wide, narrow):
    return wide[1] & ~narrow[1] == 0 and holds(wide, narrow[0])


def header_text(header):
    """The fields of a header, as lines have them."""
    src, dst = (".".join(map(str, (header >> at & 0xFFFFFFFF).to_bytes(4))) for at in (72, 40))
    proto = header % 2**8
    name = {1: "icmp", 6: "tcp", 17: "udp"}.get(proto, proto)
    return f"{src} {dst} {header >> 24 & 65535} {header >> 8 & 65535} {name}"


def word_text(word):
    return f"{word[0]:026x}/{word[1]:026x}"


def widen(header, region, rules, hit):
    """The cache word of a header that rule `hit` decides: each bit in turn is freed where it may.

    The word stays within the region and the rule, and meets no earlier rule.
    """
    word = (header, EXACT)
    apart = [(value ^ header) & mask for (value, mask), *_ in rules[:hit]]
    for bit in range(plan_model.BITS):
        mask = word[1] & ~(1 << bit)
        freed = (word[0] & mask, mask)
        within = covers(region, freed) and covers(rules[hit][0], freed)
        if within and all(bits & mask for bits in apart):
            word = freed
    return word


class Refused(Exception):
    """A policy has no plan, or can't be submitted; its code says why."""

    def __init__(self, code):
        super().__init__(code)
        self.code = code


class Change:
    """Rows to remove from a policy, by their priorities, and rows to add."""

    def __init__(self, edits):
        self.removed = {priority for op, priority, *_ in edits if op == "remove"}
        self.added = [row for op, *row in edits if op == "add"]

    def of(self, rows):
        """The rows that stay of these, and after them those that are added."""
        if not self.removed <= {row[0] for row in rows}:
            raise Refused(ABSENT)
        stay = [row for row in rows if row[0] not in self.removed]
        if {row[0] for row in stay} & {row[0] for row in self.added}:
            raise Refused(TAKEN)
        if len(stay) + len(self.added) > MOST_ROWS:
            raise Refused(TOO_MANY_ROWS)
        return stay + self.added

    def touches(self, rows):
        """The words of the rows that go and of those that come, or of all headers if these are many."""
        touched = [row for row in rows if row[0] in self.removed] + self.added
        words = [rule[0] for row in touched for rule in plan_model.rules_of([row])[0][:-1]]
        return words if len(words) <= MOST_TOUCHED else [(0, 0)]


class Whole:
    """A policy, whatever stood before."""

    def __init__(self, rows):
        self.rows = rows

    def of(self, rows):
        return self.rows

    def touches(self, rows):
        return [(0, 0)]


def read_file(path):
    """What a file states, by its heading: a policy or a change."""
    with open(path, newline="", encoding="utf-8-sig") as file:
        heading, *rows = [row for row in csv.reader(file) if row]
    return Change(rows) if heading == CHANGE_HEADING else Whole(rows)


class Plan:
    """The partitions of a policy, each a region with its rules, and the targets of each."""

    def __init__(self, rows, net):
        rules, words = plan_model.rules_of(rows)
        if words > MOST_WORDS:
            raise Refused(TOO_MANY_WORDS)
        self.words = words
        leaf_rules = net.get("leaf_rules", 64)
        self.parts = plan_model.leaves(rules, (0, 0), leaf_rules, MOST_PARTS + 1)
        if len(self.parts) > MOST_PARTS:
            raise Refused(TOO_MANY_PARTS)
        sizes = [len(rules) for _, rules in self.parts]
        rooms = [row.get("authority", 0) for row in net["switch"]]
        try:
            self.targets = plan_model.targets_of(sizes, rooms, net.get("backups", 0))
        except SystemExit as end:
            raise Refused(NO_ROOM) from end

    def part_of(self, header):
        return next(k for k, (region, _) in enumerate(self.parts) if holds(region, header))


def link(one, other):
    return min(one, other), max(one, other)


class Network:
    """What the network's file says; switches are numbers from 0 on, in its order."""

    def __init__(self, net):
        self.net = net
        self.names = [row["name"] for row in net["switch"]]
        self.links = {link(*map(self.names.index, row["ends"])) for row in net.get("link", [])}
        self.owner = {p: s for s, row in enumerate(net["switch"]) for p in row.get("ports", [])}
        self.cache = net.get("cache", 256)

    def neighbours(self, here):
        return {other for ends in self.links if here in ends for other in ends if other != here}

    def text(self, switches):
        return " ".join(self.names[switch] for switch in switches)


# The bodies of messages.


class Order(NamedTuple):
    """From the controller to one boot of a switch: `install`, `open`, `stamp` or `collect`."""

    kind: str
    boot: int
    version: int

    def text(self, network):
        return f"{self.kind} boot {self.boot} version {self.version}"


class CacheRule(NamedTuple):
    """From the authority that decided a packet to the switch where it entered."""

    version: int
    word: tuple
    rule: str
    action: str

    def text(self, network):
        word = word_text(self.word)
        return f"cache version {self.version} word {word} rule {self.rule} {self.action}"


class Advert(NamedTuple):
    """From switch to switch: who the neighbours of the origin are."""

    origin: int
    boot: int
    seq: int
    near: frozenset

    def age(self):
        return self.boot, self.seq

    def text(self, network):
        name = network.names[self.origin]
        near = network.text(sorted(self.near)) or "-"
        return f"advert {name} boot {self.boot} seq {self.seq} up {near}"


class Report(NamedTuple):
    """From a switch to the controller: `hello` (of no version), `installed` or `stamped`."""

    kind: str
    switch: int
    boot: int
    version: int | None = None

    def text(self, network):
        tail = "" if self.version is None else f" version {self.version}"
        return f"{self.kind} {network.names[self.switch]} boot {self.boot}{tail}"


CONTROLLER = None


class Journal:
    """The lines that are told, and the bag of the messages that were ever sent, each with the boot
    that its receiver was in then."""

    def __init__(self, network):
        self.network = network
        self.lines = []
        self.leavings = []
        self.messages = []
        self.boots = []
        self.switches = []
        self.delivered, self.forgotten = set(), set()

    def row(self, row, fields):
        self.lines.append(f"row {row}: " + " ".join(map(str, fields)))

    def say(self, text):
        self.lines.append("  " + text)

    def send(self, to, body):
        self.messages.append((to, body))
        self.boots.append(None if to is CONTROLLER else self.switches[to].boot)
        name = "controller" if to is CONTROLLER else self.network.names[to]
        self.say(f"sent {len(self.messages)} {name} {body.text(self.network)}")

    def meter_lines(self):
        """How many packets left by each port, of which none has fewer than one."""
        counts = sorted(Counter(port for port, _ in self.leavings).items())
        return [f"meter port {port} notes {count}" for port, count in counts]

    def flow_lines(self):
        """How many packets of each header left by each port: of the ports whose meter left, as each
        had its last header; and then of the others."""
        gone, ports = [], {port: Counter() for port in sorted(self.network.owner)}
        for port, header in self.leavings:
            if port in ports:
                ports[port][header] += 1
                if len(ports[port]) == MOST_HEADERS:
                    gone.append((port, ports.pop(port)))
        return [
            f"flow port {port} {header_text(header)} packets {count}"
            for port, counts in [*gone, *ports.items()]
            for header, count in counts.items()
        ]

    def has(self, message):
        """A message that was sent can be delivered, late or again, until it is forgotten."""
        return 1 <= message <= len(self.messages) and message not in self.forgotten


class Entry(NamedTuple):
    """A cache rule as a switch keeps it, with the number of its message."""

    version: int
    word: tuple
    rule: str
    action: str
    message: int


class Switch:
    """What a switch holds. At the start all are up and open, and know all links."""

    def __init__(self, number, network):
        self.number = number
        self.up = self.open = True
        self.boot = self.stamp = self.seq = 1
        self.collected = 0
        self.tables = {1}
        self.cache = []
        self.adverts = {
            origin: Advert(origin, 1, 1, frozenset(network.neighbours(origin)))
            for origin in range(len(network.names))
        }

    def serves(self):
        return self.up and self.open

    def crash(self):
        """All is lost but the number of the boot."""
        self.up = self.open = False
        self.stamp = self.seq = self.collected = 0
        self.tables, self.cache, self.adverts = set(), [], {}

    def restart(self):
        """It stays closed until the controller opens it."""
        self.up = True
        self.boot += 1

    def install(self, version):
        if version > self.collected:
            self.tables.add(version)

    def collect(self, version):
        self.collected = max(self.collected, version)
        self.tables = {held for held in self.tables if held > self.collected}

    def raise_stamp(self, version):
        """Cache rules of earlier versions go as the stamp rises."""
        if version > self.stamp:
            self.stamp = version
            self.cache = [entry for entry in self.cache if entry.version >= version]

    def carry(self, version, touched):
        """Of the version before, cache rules that meet nothing touched go over as the stamp rises."""
        if version > self.stamp:
            words = [entry.word for entry in self.cache if entry.version == version]
            self.cache = [
                entry._replace(version=max(entry.version, version))
                for entry in self.cache
                if entry.version >= version
                or entry.version == version - 1
                and entry.word not in words
                and all(plan_model.meet(entry.word, word) is None for word in touched)
            ]
        self.raise_stamp(version)

    def keep(self, rule, message, capacity):
        """None that is too old, and no word of a version twice; a full cache drops its oldest."""
        words = [(entry.version, entry.word) for entry in self.cache]
        if rule.version >= self.stamp and (rule.version, rule.word) not in words:
            self.cache.append(Entry(*rule, message))
            if len(self.cache) > capacity:
                self.cache.pop(0)

    def cached(self, header):
        fit = (entry for entry in self.cache if entry.version == self.stamp)
        return next((entry for entry in fit if holds(entry.word, header)), None)

    def is_news(self, advert):
        """Of another switch, and newer than what is held of it. A switch knows its own links."""
        held = self.adverts.get(advert.origin)
        return advert.origin != self.number and (held is None or held.age() < advert.age())

    def all_adverts(self):
        return [self.adverts[origin] for origin in sorted(self.adverts)]

    def known_links(self, near):
        """Those that both ends name; of its own links the switch reads `near`, not its advert."""
        named = {(self.number, far) for far in near}
        for origin, advert in self.adverts.items():
            if origin != self.number:
                named |= {(origin, far) for far in advert.near}
        return {link(one, other) for one, other in named if (other, one) in named}


def least_shortest(here, target, links):
    """The least of the shortest paths from `here` to `target`; all of them are walked at once."""
    ways = links | {(other, one) for one, other in links}
    paths, seen = [[here]], {here}
    while paths:
        arrived = [path for path in paths if path[-1] == target]
        if arrived:
            return min(arrived)
        fresh = {(one, far) for one, far in ways if far not in seen}
        paths = [[*path, far] for path in paths for one, far in fresh if one == path[-1]]
        seen.update(path[-1] for path in paths)
    return None


class Member:
    """What the controller knows of a switch."""

    def __init__(self):
        self.phase = "member"
        self.boot = self.opened = self.stamp = 1
        self.acknowledged = {1}

    def join(self, boot):
        self.phase = "joining"
        self.boot = boot
        self.opened = self.stamp = 0
        self.acknowledged = set()

    def become_member(self, version):
        self.phase = "member"
        self.opened = self.stamp = version


class Controller:
    """It takes the switches from version to version; it knows of them by their reports alone."""

    def __init__(self, journal, switches):
        self.journal = journal
        self.members = [Member() for _ in range(switches)]
        self.count = self.current = 1
        self.retired = 0

    def order(self, switch, kind, version):
        self.journal.send(switch, Order(kind, self.members[switch].boot, version))

    def in_phase(self, phase):
        return [s for s, member in enumerate(self.members) if member.phase == phase]

    def install_missing(self, switch, first):
        for version in range(first, self.count + 1):
            if version not in self.members[switch].acknowledged:
                self.order(switch, "install", version)

    def check_room(self):
        if self.count - self.retired == MOST_LIVE:
            raise Refused(TOO_MANY_LIVE)
        if self.count == MOST_VERSIONS:
            raise Refused(TOO_MANY_VERSIONS)

    def submit(self):
        self.count += 1
        for switch, member in enumerate(self.members):
            if member.phase != "over":
                self.order(switch, "install", self.count)
        self.settle()

    def confirm(self, switch):
        self.members[switch].phase = "over"
        self.settle()

    def hear(self, report):
        """Only `hello` tells of a new boot; what else another boot reports is of no use."""
        member = self.members[report.switch]
        joins = report.kind == "hello" and report.boot > member.boot
        if joins:
            member.join(report.boot)
        elif report.boot == member.boot and report.kind == "installed" and member.phase != "over":
            member.acknowledged.add(report.version)
        elif report.boot == member.boot and report.kind == "stamped" and member.phase == "member":
            member.stamp = max(member.stamp, report.version)
        self.settle()
        if joins:
            self.install_missing(report.switch, self.current)

    def settle(self):
        self.raise_current()
        self.admit()
        self.retire()

    def raise_current(self):
        """The newest version that all members installed, with all before it."""
        members, before = self.in_phase("member"), self.current
        while self.current < self.count and all(
            self.current + 1 in self.members[switch].acknowledged for switch in members
        ):
            self.current += 1
        if self.current > before:
            self.journal.say(f"current {self.current}")
            for switch in members:
                self.order(switch, "stamp", self.current)

    def admit(self):
        for switch in self.in_phase("joining"):
            if self.current in self.members[switch].acknowledged:
                self.members[switch].become_member(self.current)
                self.order(switch, "open", self.current)

    def retire(self):
        """The versions below the stamps that all members acknowledged."""
        members = self.in_phase("member")
        stamps = [self.members[switch].stamp for switch in members]
        retired = min(stamps, default=self.current) - 1
        if retired > self.retired:
            self.retired = retired
            self.journal.say(f"retired {retired}")
            for switch in members:
                self.order(switch, "collect", retired)

    def resend(self, switch):
        """What the switch may lack, once more, and nothing that it acknowledged."""
        member = self.members[switch]
        if member.phase == "joining":
            self.install_missing(switch, self.current)
        elif member.phase == "member":
            self.order(switch, "open", member.opened)
            self.install_missing(switch, self.current + 1)
            if member.stamp < self.current:
                self.order(switch, "stamp", self.current)
            if self.retired:
                self.order(switch, "collect", self.retired)


class Seek(NamedTuple):
    """The leg of a packet that looks for an authority of its partition."""

    version: int
    part: int


class Exit(NamedTuple):
    """The leg of a decided packet to the switch of its port."""

    port: int


class Packet:
    """A packet that entered. It stands at `place` of its route, as long as it travels."""

    def __init__(self, number, header, ingress):
        self.number = number
        self.header = header
        self.ingress = ingress
        self.travels = True
        self.leg = None
        self.route, self.place = [ingress], 0
        self.down = set()

    def at(self):
        return self.route[self.place]

    def is_at_end(self):
        return self.place == len(self.route) - 1


class World:
    """The network as it is played: a method `row_KIND` for each kind of row."""

    def __init__(self, net, policies):
        self.network = Network(net)
        self.files = [read_file(path) for path in policies]
        self.newest = self.files[0].of([])
        self.plans = {1: Plan(self.newest, net)}
        self.touched = {}
        self.journal = Journal(self.network)
        self.say, self.send = self.journal.say, self.journal.send
        self.is_link_up = dict.fromkeys(self.network.links, True)
        self.switches = [Switch(number, self.network) for number in range(len(self.network.names))]
        self.journal.switches = self.switches
        self.waited_for = set()
        self.controller = Controller(self.journal, len(self.switches))
        self.packets, self.going = {}, []  # of those that are going some may have ended
        self.packet_rows = 0
        self.flushed = 0  # no message up to this one waits

    # Links: which are usable, and what switches tell of them.

    def near(self, here):
        """The neighbours over usable links: those that are up between two switches that serve."""
        ends = (here, *self.network.neighbours(here))
        serving = {end for end in ends if self.switches[end].serves()}
        up = {far for far in serving - {here} if self.is_link_up[link(here, far)]}
        return up if here in serving else set()

    def all_near(self):
        return [self.near(switch.number) for switch in self.switches]

    def tell_changes(self, before):
        """A switch adverts its changed links, and tells a new neighbour all that it holds."""
        after = self.all_near()
        for switch in self.switches:
            here = switch.number
            if switch.up and after[here] != before[here]:
                switch.seq += 1
                own = Advert(here, switch.boot, switch.seq, frozenset(after[here]))
                switch.adverts[here] = own
                for far in sorted(after[here]):
                    for advert in [own] if far in before[here] else switch.all_adverts():
                        self.send(far, advert)

    # Packets: from a switch to an authority, to a decision, to a port.

    def known_links(self, packet):
        """Less those that the packet found down."""
        here = packet.at()
        return self.switches[here].known_links(self.near(here)) - packet.down

    def targets(self, leg):
        if isinstance(leg, Seek):
            return self.plans[leg.version].targets[leg.part]
        return [self.network.owner[leg.port]]

    def cause(self, packet, leg):
        """Why no route leads on."""
        known = {end for ends in self.known_links(packet) for end in ends} | {packet.at()}
        isolated = known.isdisjoint(self.targets(leg))
        return "no-authority" if isinstance(leg, Seek) and isolated else "no-route"

    def set_out(self, packet, leg):
        """The route to the first target that has one; False where the packet is stuck."""
        links = self.known_links(packet)
        routes = (least_shortest(packet.at(), target, links) for target in self.targets(leg))
        route = next((route for route in routes if route is not None), None)
        if route is None:
            here, cause = self.network.names[packet.at()], self.cause(packet, leg)
            self.say(f"stuck {packet.number} {here} {cause}")
            packet.travels = False
            return False
        packet.leg, packet.route, packet.place = leg, route, 0
        return True

    def via(self, packet):
        return f"via {self.network.text(packet.route)}"

    def look_up(self, packet):
        """By the version of the switch's stamp: its cache, its own partitions, or a tunnel."""
        here = packet.at()
        switch = self.switches[here]
        version = switch.stamp
        entry = switch.cached(packet.header)
        if entry is not None:
            source = f"cache {entry.message}"
            self.decide(packet, version, entry.rule, entry.action, source)
            self.leave(packet, entry.action)
            return
        part = self.plans[version].part_of(packet.header)
        if here in self.plans[version].targets[part]:
            self.decide_as_authority(packet, version, part)
        elif self.set_out(packet, Seek(version, part)):
            self.say(f"tunnelled {packet.number} v{version} part {part} {self.via(packet)}")

    def decide(self, packet, version, rule, action, source):
        self.say(f"decided {packet.number} v{version} rule {rule} {action} {source}")

    def decide_as_authority(self, packet, version, part):
        """By the first rule that holds the header; a cache rule goes to where it entered."""
        here = packet.at()
        region, rules = self.plans[version].parts[part]
        hit = next(k for k, rule in enumerate(rules) if holds(rule[0], packet.header))
        _, _, name, action = rules[hit]
        source = f"authority {self.network.names[here]} part {part}"
        self.decide(packet, version, name, action, source)
        if packet.ingress != here:
            word = widen(packet.header, region, rules, hit)
            self.send(packet.ingress, CacheRule(version, word, name, action))
        self.leave(packet, action)

    def leave(self, packet, action):
        """A decided packet is dropped, leaves by a port here, or sets out to the port's switch."""
        if action == "drop":
            self.say(f"dropped {packet.number}")
            packet.travels = False
            return
        port = int(action.removeprefix("out:"))
        if self.network.owner[port] == packet.at():
            self.go_out(packet, port)
        elif self.set_out(packet, Exit(port)):
            self.say(f"exit {packet.number} {self.via(packet)}")

    def go_out(self, packet, port):
        self.say(f"out {packet.number} port {port}")
        self.journal.leavings.append((port, packet.header))
        packet.travels = False

    def arrive(self, packet):
        """At the route's end. Where the tables of its version are gone it is looked up anew."""
        leg = packet.leg
        if isinstance(leg, Exit):
            self.go_out(packet, leg.port)
        elif leg.version in self.switches[packet.at()].tables:
            self.decide_as_authority(packet, leg.version, leg.part)
        else:
            self.look_up(packet)

    def move(self, packet):
        packet.place += 1
        self.say(f"hopped {packet.number} {self.network.names[packet.at()]}")

    def hop(self, packet):
        if packet.is_at_end():
            self.arrive(packet)
            return
        here, ahead = packet.at(), packet.route[packet.place + 1]
        if ahead in self.near(here):
            self.move(packet)
            return
        self.say(f"found {packet.number} {self.network.text((here, ahead))}")
        packet.down.add(link(here, ahead))
        if self.set_out(packet, packet.leg):
            self.say(f"rerouted {packet.number} {self.via(packet)}")
            if packet.is_at_end():
                self.arrive(packet)
            else:
                self.move(packet)

    def travelling(self, number):
        packet = self.packets.get(number)
        return packet if packet is not None and packet.travels else None

    def all_travelling(self):
        self.going = [packet for packet in self.going if packet.travels]
        return self.going

    def row_packet(self, name, src, dst, sport, dport, proto):
        """The number of a packet is that of its row, also where the switch doesn't serve."""
        self.packet_rows += 1
        number, here = self.packet_rows, self.network.names.index(name)
        if not self.switches[here].serves():
            self.say(f"closed {number} {name}")
            return
        protocol = plan_model.PROTOCOLS[proto][0] if proto in plan_model.PROTOCOLS else int(proto)
        addresses = [plan_model.address(text)[0] for text in (src, dst)]
        header = plan_model.pack(*addresses, int(sport), int(dport), protocol)
        self.packets[number] = Packet(number, header, here)
        self.going.append(self.packets[number])
        self.say(f"entered {number} {name}")
        self.look_up(self.packets[number])

    def row_hop(self, number):
        packet = self.travelling(int(number))
        if packet is None:
            self.say("nothing")
        else:
            self.hop(packet)

    def row_lose(self, number):
        packet = self.travelling(int(number))
        if packet is None:
            self.say("nothing")
        else:
            self.lose(packet)

    def lose(self, packet):
        packet.travels = False
        self.say(f"lost {packet.number}")

    # Messages.

    def row_deliver(self, number):
        message = int(number)
        if not self.journal.has(message):
            self.say("nothing")
            return
        self.journal.delivered.add(message)
        self.say(f"delivered {message}")
        to, body = self.journal.messages[message - 1]
        if to is CONTROLLER:
            self.controller.hear(body)
        else:
            self.hear(self.switches[to], body, message)

    def hear(self, switch, body, message):
        """A switch that is down hears nothing, and no switch obeys an order to an earlier boot."""
        if not switch.up:
            return
        if isinstance(body, CacheRule):
            switch.keep(body, message, self.network.cache)
        elif isinstance(body, Advert):
            self.hear_advert(switch, body)
        elif body.boot == switch.boot:
            self.obey(switch, body)

    def hear_advert(self, switch, advert):
        """News goes on to each neighbour."""
        if switch.is_news(advert):
            switch.adverts[advert.origin] = advert
            for far in sorted(self.near(switch.number)):
                self.send(far, advert)

    def obey(self, switch, order):
        """Orders come late and again too, so what was done long ago is reported once more."""
        if order.kind == "install":
            switch.install(order.version)
            self.report(switch, "installed", order.version)
        elif order.kind == "stamp":
            switch.carry(order.version, self.touched[order.version])
            self.report(switch, "stamped", order.version)
        elif order.kind == "collect":
            switch.collect(order.version)
        else:
            switch.raise_stamp(order.version)
            self.open(switch)

    def open(self, switch):
        if not switch.open:
            before = self.all_near()
            switch.open = True
            self.say(f"opened {self.network.names[switch.number]} version {switch.stamp}")
            self.tell_changes(before)

    def report(self, switch, kind, version=None):
        self.send(CONTROLLER, Report(kind, switch.number, switch.boot, version))

    def row_forget(self, number):
        message = int(number)
        if self.journal.has(message):
            self.journal.forgotten.add(message)
            self.say(f"forgotten {message}")
        else:
            self.say("nothing")

    # Switches, links and policies.

    def switch(self, name):
        return self.switches[self.network.names.index(name)]

    def row_expire(self, name, place):
        cache = self.switch(name).cache
        if int(place) < len(cache):
            self.say(f"expired {name} {place} message {cache.pop(int(place)).message}")
        else:
            self.say("nothing")

    def row_update(self, file):
        try:
            policy = self.files[int(file) - 1]
            rows = policy.of(self.newest)
            plan = Plan(rows, self.network.net)
            self.controller.check_room()
        except Refused as refused:
            self.say(f"refused file {file} code {refused.code}")
            return
        version = self.controller.count + 1
        self.touched[version] = policy.touches(self.newest)
        self.newest, self.plans[version] = rows, plan
        self.say(f"submitted file {file} version {version}")
        self.controller.submit()

    def row_linkdown(self, one, other):
        self.set_link(one, other, False)

    def row_linkup(self, one, other):
        self.set_link(one, other, True)

    def set_link(self, one, other, up):
        ends = link(self.network.names.index(one), self.network.names.index(other))
        if self.is_link_up[ends] == up:
            self.say("nothing")
            return
        before = self.all_near()
        self.is_link_up[ends] = up
        self.say(f"link {self.network.text(ends)} {'up' if up else 'down'}")
        self.tell_changes(before)

    def row_crash(self, name):
        """The packets that stand there are lost with it."""
        switch = self.switch(name)
        if not switch.up:
            self.say("nothing")
            return
        before = self.all_near()
        switch.crash()
        self.waited_for.add(switch)
        self.say(f"down {name}")
        for packet in self.all_travelling():
            if packet.at() == switch.number:
                self.lose(packet)
        self.tell_changes(before)

    def row_restart(self, name):
        switch = self.switch(name)
        if switch.up:
            self.say("nothing")
            return
        switch.restart()
        self.say(f"booted {name} {switch.boot}")
        self.report(switch, "hello")

    def row_confirm(self, name):
        switch = self.switch(name)
        if switch.up:
            self.say("nothing")
            return
        self.waited_for.discard(switch)
        self.say(f"over {name}")
        self.controller.confirm(switch.number)

    def row_resend(self, name):
        switch, sent = self.switch(name), len(self.journal.messages)
        if switch.up:
            self.report(switch, "hello")
            for far in sorted(self.near(switch.number)):
                for advert in switch.all_adverts():
                    self.send(far, advert)
        self.controller.resend(switch.number)
        if len(self.journal.messages) == sent:
            self.say("nothing")

    # Whether the network is quiet.

    def matters(self, number):
        """What a switch that is up says in its boot; to such a switch, an advert or what is for its
        boot, and was sent in it. Tables of a version before the current one don't, nor their
        report."""
        to, body = self.journal.messages[number - 1]
        if isinstance(body, CacheRule) or isinstance(body, Report) != (to is CONTROLLER):
            return False
        switch = self.switches[body.switch if to is CONTROLLER else to]
        if not switch.up:
            return False
        if isinstance(body, Advert):
            return self.journal.boots[number - 1] == switch.boot
        if to is not CONTROLLER and self.journal.boots[number - 1] != switch.boot:
            return False
        old = body.kind in ("install", "installed") and body.version < self.controller.current
        return body.boot == switch.boot and not old

    def replaces(self, later, earlier):
        """It was sent later to the same receiver, and says the same, or more."""
        (to, body), (receiver, other) = (self.journal.messages[n - 1] for n in (later, earlier))
        if later <= earlier or to != receiver or type(body) is not type(other):
            return False
        if isinstance(body, Advert) and body.origin == other.origin:
            return body == other or other.age() < body.age()
        if body == other:
            return True
        more = ("stamp", "collect", "stamped")
        return body[0] in more and body[:-1] == other[:-1] and other.version < body.version

    def is_quiet(self):
        """The controller waits for no switch that is down, and each message that matters was
        delivered, or one that replaces it."""
        if any(not switch.up for switch in self.waited_for):
            return False
        numbers = range(1, len(self.journal.messages) + 1)
        return all(
            number in self.journal.delivered
            or any(self.replaces(later, number) for later in self.journal.delivered)
            for number in numbers
            if self.matters(number)
        )

    # Rows.

    def step(self, row, kind, *fields):
        """One step. The row of a link is told with the earlier switch first."""
        told = sorted(fields, key=self.network.names.index) if kind.startswith("link") else fields
        self.journal.row(row, [kind, *told])
        getattr(self, "row_" + kind)(*fields)

    def drain(self, row):
        """Hops of the least packet that travels, until none does."""
        while travelling := self.all_travelling():
            self.step(row, "hop", travelling[0].number)

    def flush(self, row):
        """Each message that waits, in order; also those that are sent meanwhile."""
        while self.flushed < len(self.journal.messages):
            self.flushed += 1
            if self.flushed not in self.journal.delivered and self.journal.has(self.flushed):
                self.step(row, "deliver", self.flushed)

    def play(self, rows):
        for row, (kind, *fields) in enumerate(rows, 1):
            if kind == "drain":
                self.drain(row)
            elif kind == "flush":
                self.flush(row)
            else:
                self.step(row, kind, *fields)


def played(net, schedule, policies):
    """The world after the schedule."""
    try:
        world = World(net, policies)
    except Refused:
        sys.exit(3)
    with open(schedule, newline="") as file:
        world.play([row for row in csv.reader(file) if row][1:])
    return world


def main():
    args, net = sys.argv[1:], SOLO
    quiet, flows = "--quiet" in args, "--flows" in args
    args = [arg for arg in args if arg not in ("--quiet", "--flows")]
    if "--net" in args:
        at = args.index("--net")
        with open(args[at + 1], "rb") as file:
            net = tomllib.loads(file.read().decode("utf-8-sig"))
        del args[at : at + 2]
    if len(args) < 2:
        sys.exit(__doc__)
    world = played(net, args[0], args[1:])
    lines = [*world.journal.lines, *world.journal.meter_lines()]
    if flows:
        lines = world.journal.flow_lines()
    if quiet:
        lines.append("quiet yes" if world.is_quiet() else "quiet no")
    sys.stdout.write("".join(line + "\n" for line in lines))


if __name__ == "__main__":
    main()
