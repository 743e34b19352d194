"""One switch beside a journal: each packet that is looked up there goes through a bridge."""
import re
from collections import Counter

from parts.folder import Case
from parts.journal import said_by
from parts.table import plural

from . import daemon, flows, tables

TUNNEL = "to-"


def read_text(text):
    """The tables of a switch, and the lines of the journal after them, if any."""
    held, journal = tables.read_tables(text)
    for number, line in enumerate(journal, text.count("\n") - len(journal) + 1):
        if said_by(line.removeprefix("  ")) is None:
            raise tables.Refused(f"line {number}: this is not a line of a journal: {line[:60]!r}")
    return held, journal


# ---- from tables to flows


def exit_of(action):
    """The name of the port that an action says, or none."""
    return None if action == "drop" else f"port{action.removeprefix('out:')}"


def tunnel_to(target):
    """The name of the port that leads to a switch."""
    if len(target) > 12:
        raise daemon.Failed(f"the name {target} has more than 12 letters: too long for a port")
    return f"{TUNNEL}{target}"


def sending(port):
    return f"output:{port}" if port else "drop"


def flows_of(held):
    """The flows of a switch's tables, with a comment above each rule."""
    yield from flows.copying(0)
    for rule in held.rules:
        yield f"# rank {rule.rank} rule {rule.name} {rule.action}"
        yield flows.rule_flow(rule, 1, flows.match_of(rule.word), sending(exit_of(rule.action)))
    for region in held.elsewhere():
        yield f"# part {region.part} is decided at {region.targets[0]}"
        port = tunnel_to(region.targets[0])
        yield flows.region_flow(region, 1, flows.match_of(region.word), sending(port))


def cache_flow(number, word, action):
    """The flow of the cache rule that a message brings."""
    match, actions = flows.match_of(word), sending(exit_of(action))
    return flows.flow(flows.CACHED + int(number), 1, flows.TOP, match, actions)


# ---- from a journal to what a switch does


def told_of(switch, journal):
    """What the journal tells of a switch under version 1, in order.

    `("learn", N, FLOW)` and `("forget", N)`: the cache rule of message N comes, or times out.
    `("look", I, HEADER, FOUND, PORT)`: packet I is looked up, and what decides it and sends it on.
    """
    headers, entries, sent, held, row = {}, {}, {}, set(), []
    for texts in map(str.split, journal):
        match texts:
            case ["row", *_]:
                row = texts
            case ["entered", packet, at]:
                headers[packet], entries[packet] = row[4:9], at
            case ["sent", number, to, "cache", _, "1", _, word, _, _, action] if to == switch:
                sent[number] = word, action
            case ["delivered", number] if number in sent and sent[number][0] not in held:
                held.add(sent[number][0])
                yield "learn", number, cache_flow(number, *sent[number])
            case ["expired", at, _, "message", number] if at == switch and number in sent:
                held.discard(sent[number][0])
                yield "forget", number
            case ["decided", i, "v1", "rule", rule, action, "authority", at, *_]:
                if at == switch:
                    yield "look", i, headers[i], f"rule {rule}", exit_of(action)
            case ["decided", i, "v1", "rule", _, action, "cache", number]:
                if entries[i] == switch:
                    yield "look", i, headers[i], f"cache {number}", exit_of(action)
            case ["tunnelled", i, "v1", "part", part, "via", at, *_, target]:
                if at == switch == entries[i]:
                    yield "look", i, headers[i], f"part {part}", tunnel_to(target)


def all_flows(held, journal):
    """The flows of tables, and of the cache rules of the journal after them."""
    cached = {}
    for what, number, *rest in told_of(held.switch, journal):
        if what == "learn":
            cached[number] = rest
        elif what == "forget":
            cached.pop(number, None)
    own, fresh = list(flows_of(held)), [text for text, in cached.values()]
    yield from port_lines([*own, *fresh])
    yield from own
    for number, text in zip(cached, fresh):
        yield f"# the cache rule of message {number}"
        yield text


def ports_in(texts):
    """The names of the ports to which flows send packets: those of the network come first."""
    named = {name for text in texts for name in re.findall(r"output:([\w-]+)", text)}
    ports = [name for name in named if not name.startswith(TUNNEL)]
    return sorted(ports, key=lambda name: int(name.removeprefix("port"))) + sorted(named - {*ports})


def port_lines(texts):
    """Comments that list the ports which the bridge needs, as commands that make them."""
    names = ports_in(texts)
    yield f"# {'before the flows make these ports' if names else 'the flows need no port'} of br0"
    for name in names:
        command = f"# ovs-vsctl add-port br0 {name} -- set interface {name} type="
        if name.startswith(TUNNEL):
            yield f"{command}vxlan options:remote_ip=ADDRESS-OF-{name.removeprefix(TUNNEL)}"
        else:
            yield f"{command}internal"
    if any(not name.startswith(TUNNEL) for name in names):
        yield "# portP is port P of the network: where that is at another switch, a tunnel to it"


# ---- the check


class Bridge(daemon.OpenVSwitch):
    """An Open vSwitch with one bridge br0 over a dummy datapath."""

    def load(self, own, later):
        """Adds the ports of all these flows, and loads those of the tables."""
        ports = dict.fromkeys(["in", *ports_in([*own, *later])], daemon.DUMMY)
        self.configure(*daemon.bridge_args("br0", ports))
        self.learn(own)

    def learn(self, fresh):
        self.add("br0", fresh)
        self.before = self.counts()

    def forget(self, cookie):
        self.run("ovs-ofctl", "del-flows", "br0", f"cookie={cookie}/-1")

    def flows(self):
        """The cookie of each flow of table 1, and how many packets it counted."""
        told = self.run("ovs-ofctl", "dump-flows", "br0", "table=1")
        pairs = re.findall(r"cookie=(\w+),.* n_packets=(\d+)", told)
        return [(int(cookie, 16), int(count)) for cookie, count in pairs]

    def counts(self):
        """How many packets the flows of each cookie counted, and how many left by each port."""
        self.ask("revalidator/purge")
        counted = Counter()
        for cookie, count in self.flows():
            counted[cookie] += count
        return counted, self.left_by("br0")

    def send(self, header):
        """The cookie of the flow that counts a packet of this header, and the port it leaves by."""
        self.ask("netdev-dummy/receive", "in", flows.packet_of(*header))
        before, self.before = self.before, self.counts()
        rose = [
            [key for key in new if new[key] != old.get(key, 0)]
            for old, new in zip(before, self.before)
        ]
        return tuple(found[0] if len(found) == 1 else None for found in rose)


def play(bridge, told, names):
    """Does what is told of the switch; how many lookups were the same, others, or not sent."""
    same, wrong, unseen = 0, 0, 0
    for what, number, *rest in told:
        if what == "learn":
            bridge.learn(rest)
        elif what == "forget":
            bridge.forget(flows.CACHED + int(number))
        elif not flows.is_seen(rest[0]):
            unseen += 1
        else:
            header, *wanted = rest
            cookie, port = bridge.send(header)
            if [name_of(cookie, names), port] == wanted:
                same += 1
            else:
                wrong += 1
                print(f"packet {number} {header}: {name_of(cookie, names)} {port}, not {wanted}")
    return same, wrong, unseen


def name_of(cookie, names):
    """What a flow of table 1 means; a rank has the name of its row."""
    if cookie is None:
        return None
    kind, number = flows.kind_of(cookie)
    if kind == flows.RULE:
        return f"rule {names[number]}"
    return f"cache {number}" if kind == flows.CACHED else f"part {number}"


def compare(path):
    """Prints what the switch of these tables did with each packet; whether anything differs."""
    held = tables.read_file(path)
    case = Case(path.parent / "journal.txt", str(path.parent))
    told = list(told_of(held.switch, [item.text for item in case.items()]))
    rules, regions = len(held.rules), len(held.elsewhere())
    with Bridge() as bridge:
        learnt = [rest[0] for what, _, *rest in told if what == "learn"]
        bridge.load(list(flows_of(held)), learnt)
        count = len(bridge.flows())
        names = {rule.rank: rule.name for rule in held.rules}
        same, wrong, unseen = play(bridge, told, names)
    print(
        f"{path.parent.resolve().name}/{path.name}: {plural(rules, 'rule')} and "
        f"{plural(regions, 'region')} in {plural(count, 'flow')}; {plural(same, 'lookup')} as in the "
        f"journal, {wrong} others, {unseen} not sent",
        flush=True,
    )
    return wrong > 0 or count != rules + regions
