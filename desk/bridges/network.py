"""A network of bridges beside a journal: each packet goes through it from where it entered."""
import re
import time
from collections import Counter
from typing import NamedTuple

from parts.folder import Case
from parts.plays import Player
from parts.table import plural

from . import daemon, flows, tables
from .told import told_of
from .wiring import Net, Wiring

import plan_model

TOO_FAR = "over more links than Open vSwitch takes"
PATIENCE = 5.0  # seconds until the ports have counted what was sent


class Seen(NamedTuple):
    """What a network does with a packet: the name of the rule, the end, and the path."""

    rule: str | None
    end: str
    way: list


class Network(daemon.OpenVSwitch):
    """Open vSwitch with a bridge for each switch, and the tables of some versions."""

    def load(self, net, held):
        """Makes the bridges, and loads their flows; `held` has by version each switch's tables."""
        self.net, self.count = net, 0
        self.rules = {
            (version, name, rule.rank): rule
            for version, switches in held.items()
            for name, own in switches.items()
            for rule in own.rules
        }
        versions = {version: targets_of(net, switches) for version, switches in held.items()}
        wirings = [Wiring(net, here) for here in range(len(net.names))]
        self.configure(*(
            arg for wiring in wirings
            for arg in daemon.bridge_args(f"switch{wiring.here}", wiring.ports(versions))
        ))
        for wiring in wirings:
            own = [*wiring.entering(versions), *flows.copying(1)]
            for version, switches in held.items():
                own += wiring.held(version, switches[net.names[wiring.here]])
            self.add(f"switch{wiring.here}", own)
            self.count += self.held_by(f"switch{wiring.here}", len(own))

    def held_by(self, bridge, count):
        """So many flows the bridge has, as it was given."""
        told = self.run("ovs-ofctl", "dump-aggregate", bridge)
        if f"flow_count={count}\n" not in told:
            raise daemon.Failed(f"{bridge} was given {count} flows, and says {told.strip()}")
        return count

    def enters(self, packet):
        """The bridge and the port by which a packet enters."""
        here = self.net.names.index(packet.at)
        return f"switch{here}", f"in{here}-{packet.version}"

    def trace(self, packet):
        """What becomes of a packet."""
        bridge, port = self.enters(packet)
        fields = f"in_port={port},{flows.fields_of(*packet.header)}"
        told = self.ask("ofproto/trace", "--names", bridge, fields)
        rule, way = None, []
        for at, cookie in re.findall(r'bridge\("switch(\d+)"\)|cookie (0x[0-9a-f]+)', told):
            way += [self.net.names[int(at)]] if at else []
            kind, rank = flows.kind_of(int(cookie or "0", 16))
            if kind == flows.RULE:
                rule = self.rules[packet.version, way[-1], rank]
        return Seen(rule and rule.name, end_of(told, rule, way[-1]), way)

    def send(self, packets):
        """Sends the packets; how many left by each port, once it's as many as expected."""
        for packet in packets:
            port = self.enters(packet)[1]
            self.ask("netdev-dummy/receive", port, flows.packet_of(*packet.header))
        expected = Counter(packet.end for packet in packets if packet.end.startswith("out"))
        until = time.monotonic() + PATIENCE
        while (left := self.left()) != expected and time.monotonic() < until:
            time.sleep(0.05)
        return left, expected

    def left(self):
        """How many packets left by each port of the network."""
        counted = Counter()
        for here in sorted(set(self.net.owner.values())):
            for port, count in self.left_by(f"switch{here}").items():
                if port.startswith("out") and count:
                    counted[f"out by port {port.removeprefix('out')}"] = count
        return counted


def targets_of(net, switches):
    """The numbers of all switches that decide a region."""
    regions = (region for own in switches.values() for region in own.regions)
    return {net.names.index(name) for region in regions for name in region.targets}


def end_of(told, rule, at):
    """How a packet ends that the datapath treats as a trace tells."""
    fault = re.search(r">>>> (.*) <<<<", told)
    if fault:
        return TOO_FAR if "max translation depth" in fault[1] else fault[1]
    actions = re.search(r"^Datapath actions: (.*)$", told, re.M)[1]
    if actions == "drop":
        return "dropped" if rule and rule.action == "drop" else f"stuck at {at}"
    port = re.fullmatch(r"out(\d+)", actions)
    return f"out by port {port[1]}" if port else f"the datapath does {actions}"


# ---- the comparison


def case_in(folder):
    """The folder's journal, or else that of the slow model; the program may not refuse a file."""
    player = Player(str(folder), None)
    rows = player.own_rows()
    own = folder / "journal.txt"
    return Case(own, str(folder)) if own.is_file() else player.case(rows)


def tables_of(folder, name, version, rows):
    """The tables that a switch has for a version, whose policy has these rows."""
    own, net = folder / f"show-{name}.txt", folder / "net.toml"
    if version == 1 and own.is_file():
        return tables.read_file(own)
    net = net if net.is_file() else None
    return tables.read_tables(plan_model.text_of(rows, name, net))[0]


def all_tables(folder, case, names, versions):
    """By version the tables of each switch."""
    found = {}
    for version in versions:
        rules = case.policy(version)
        if rules is None:
            raise tables.Refused(f"{folder}: the journal has more policies than there are files")
        rows = tuple(tuple(rule.fields) for rule in rules)
        found[version.number] = {
            name: tables_of(folder, name, version.number, rows) for name in names
        }
    return found


def differences(network, seen):
    """A line for each packet, and for the counts of ports, that isn't as in the journal."""
    for packet, found in seen:
        if not packet.is_as(found):
            wanted = f"rule {packet.rule}, {packet.end}, by {' '.join(packet.way)}"
            became = f"rule {found.rule}, {found.end}, by {' '.join(found.way)}"
            yield f"packet {packet.number}: {became}, and not {wanted}"
    left, expected = network.send([packet for packet, _ in seen])
    if left != expected:
        yield f"ports: {dict(left)}, and not {dict(expected)}"


def play(network, packets):
    """What a network does with each packet that isn't left out, and why others are."""
    seen = [(packet, network.trace(packet)) for packet in packets if packet.left_out() is None]
    reasons = Counter(packet.left_out() for packet in packets if packet.left_out())
    reasons.update(TOO_FAR for _, found in seen if found.end == TOO_FAR)
    return [(packet, found) for packet, found in seen if found.end != TOO_FAR], reasons


def compare(folder):
    """Prints what a network made of a folder did with its packets; whether anything differs."""
    case = case_in(folder)
    told, packets = told_of(case)
    net = Net(case.net())
    if strange := told.network.switches.keys() - {*net.names}:
        raise tables.Refused(f"{folder}: net.toml lacks the journal's switch {min(strange)}")
    used = {1, *(packet.version for packet in packets)}
    versions = [told.network.versions[number] for number in sorted(used)]
    held = all_tables(folder, case, net.names, versions)
    with Network() as network:
        network.load(net, held)
        seen, reasons = play(network, packets)
        wrong = list(differences(network, seen))
    cached = sum(packet.cached for packet, _ in seen)
    others = ", ".join(f"{count} {why}" for why, count in reasons.items()) or "none"
    print(*wrong, sep="\n", end="\n" if wrong else "")
    print(
        f"{folder.resolve().name}: {plural(len(net.names), 'switch')}, {network.count} flows; "
        f"{plural(len(seen), 'packet')} ({cached} of caches), {plural(len(wrong), 'difference')}; "
        f"not compared: {others}",
        flush=True,
    )
    return bool(wrong)
