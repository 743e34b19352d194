"""Flows of Open vSwitch, as lines of `ovs-ofctl add-flows`."""
from parts.words import bits_of, dotted

WITH_PORTS = {6: "tcp", 17: "udp", 132: "sctp"}
NUMBERS = {"icmp": 1, "tcp": 6, "udp": 17}
HOSTS = {"nw_src": 72, "nw_dst": 40}  # the lowest bit of each address in a word
REGISTERS = {"reg0": (24, 16), "reg1": (8, 16), "reg2": (0, 8)}  # and of the others, with its width
TOP = 65535  # the priority of cache rules

# What a flow means is the upper half of its cookie, and a number the lower one: the rank of a
# rule, the part of a region, the message of a cache rule.
RULE, SENT_ON, CACHED, COPYING, TAGGED = (kind << 32 for kind in range(1, 6))


def kind_of(cookie):
    """What a flow means, and its number."""
    number = cookie & (1 << 32) - 1
    return cookie - number, number


def match_of(word):
    """What a packet of the word has, once the flows of `copying` have seen it."""
    match = ["ip"]
    for name, low in HOSTS.items():
        value, mask = bits_of(word, low, 32)
        match += [f"{name}={dotted(value)}/{dotted(mask)}"] if mask else []
    for name, where in REGISTERS.items():
        value, mask = bits_of(word, *where)
        match += [f"{name}={value:#x}/{mask:#x}"] if mask else []
    return ",".join(match)


def flow(cookie, table, priority, match, actions):
    return f"cookie={cookie},table={table},priority={priority},{match},actions={actions}"


def rule_flow(rule, table, match, actions):
    """The flow of a rule: the rule of rank 0 comes before all others."""
    return flow(RULE + rule.rank, table, TOP - 1 - rule.rank, match, actions)


def region_flow(region, table, match, actions):
    """The flow of a region that is decided elsewhere."""
    return flow(SENT_ON + region.part, table, 1, match, actions)


def copying(table):
    """The flows that copy what a flow can't match bit by bit, and go on to the next table."""
    protocol = "move:NXM_OF_IP_PROTO[]->NXM_NX_REG2[0..7]"
    for name in WITH_PORTS.values():
        ends = zip(("SRC", "DST"), (0, 1))
        of = "OXM_OF_SCTP" if name == "sctp" else f"NXM_OF_{name.upper()}"
        ports = ",".join(f"move:{of}_{end}[]->NXM_NX_REG{number}[0..15]" for end, number in ends)
        yield flow(COPYING, table, 2, name, f"{ports},{protocol},resubmit(,{table + 1})")
    yield flow(COPYING, table, 1, "ip", f"{protocol},resubmit(,{table + 1})")


def number_of(protocol):
    return NUMBERS.get(protocol) or int(protocol)


def is_seen(header):
    """Whether a switch sees the ports of this header, or they are 0."""
    return number_of(header[4]) in WITH_PORTS or header[2:4] == ["0", "0"]


def packet_of(source, target, sport, dport, protocol):
    """A packet as netdev-dummy/receive takes it."""
    number = number_of(protocol)
    text = "in_port(1),eth(src=50:54:00:00:00:01,dst=50:54:00:00:00:02),eth_type(0x0800),"
    text += f"ipv4(src={source},dst={target},proto={number},tos=0,ttl=64,frag=no)"
    if number in WITH_PORTS:
        text += f",{WITH_PORTS[number]}(src={sport},dst={dport})"
    return text + {6: ",tcp_flags(0)", 1: ",icmp(type=8,code=0)"}.get(number, "")


def fields_of(source, target, sport, dport, protocol):
    """The same packet as ofproto/trace takes it."""
    number = number_of(protocol)
    name = WITH_PORTS.get(number)
    text = name or {1: "icmp,icmp_type=8,icmp_code=0"}.get(number, f"ip,nw_proto={number}")
    text += f",nw_src={source},nw_dst={target},nw_ttl=64"
    return text + (f",{name}_src={sport},{name}_dst={dport}" if name else "")
