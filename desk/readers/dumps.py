"""Reads what `tcpdump -nn` prints, also with -e, -q, -t, -v, -x and -#.

Its text doesn't name TCP and UDP, but for -v. A line with ports is TCP's where `Flags [` or `tcp`
follows, SCTP's or DCCP's where that is said, and else UDP's.
"""
import re

from readers.common import Unsaid, address_of, protocol_of
from readers.packets import Packet, WITH_PORTS

CUT_IP = r"(?:truncated-ip - \d+ bytes missing! ?)?"
PLAIN = re.compile(rf"[^>(]*?\b(?:IP|ip:) {CUT_IP}(.*)")
LINKED = re.compile(rf".*?\bethertype IPv4(?: \(0x0800\))?, (?:length \d+: )?(?:IP )?{CUT_IP}(.*)")
OTHER = re.compile(r"[^>(]*?\b(IP6|ARP|LLDP|STP|MPLS|IS-IS|CDPv\d|LACPv\d)\b")
OTHER_LINKED = re.compile(r".*, (?:ethertype ([^ ,]+)[^,]*|(802\.3)), ")
DETAILS = re.compile(r"\(tos .*?, offset (\d{1,5}), .*?proto \S+ \((\d{1,3})\), ")
ADDRESS = r"(\d+\.\d+\.\d+\.\d+)(?:\.(\d{1,5}))?"
HEADER = re.compile(rf"\s*{ADDRESS} > {ADDRESS}: *(.*)")
NAMED = re.compile(r"\s*[\w.:-]+ > [\w.:-]+: ")
BARE = re.compile(r"ip-proto-(\d{1,3})( \d+)?")
NO_PACKET = re.compile(
    r"\s*$|\s+0x[0-9a-f]+:|\t|tcpdump: |listening on |reading from file |\d+ packets? |"
    r"\S+: .*link-type|dropped privs"
)
STARTS = {word: protocol_of(word) for word in "ICMP igmp RSVP GRE ESP AH EIGRP OSPF PIM VRRP".split()}
STARTS |= {"[|icmp": 1, "IP6": 41, "[|ip6": 41, "IP": 4, "CARP": 112}
CUT = "the packet is cut short"
LAST_PROTOCOL = 255
FRAGMENT = "a later fragment, which has no ports"
ALONE = "no addresses are in the next line"
NAMES = "names instead of numbers; `tcpdump -nn` prints numbers"
UNKNOWN = "not as `tcpdump -nn` prints a packet of IPv4"


def packets_of(lines):
    """Each packet's line, and the packet or why it is left out; other lines are skipped.

    With -v the addresses are in the line after that of the protocol.
    """
    pending = None
    for number, line in enumerate(lines, 1):
        found = HEADER.match(line) if pending else None
        if pending:
            alone = Unsaid(NAMES if NAMED.match(line) else ALONE)
            yield pending[0], spoken(found, *pending[1:]) if found else alone
        is_second = found or pending and NAMED.match(line)
        pending = None if is_second else details_of(number, line)
        if not (is_second or pending):
            yield from read(number, line)
    if pending:
        yield pending[0], Unsaid(ALONE)


def rest_of(line):
    """What follows the words that say that a line is of IPv4, or nothing.

    A tab is followed by what is said of the packet above, as the header that an ICMP error cites.
    """
    found = None if line.startswith("\t") else PLAIN.match(line) or LINKED.match(line)
    return found and found[1]


def details_of(number, line):
    """The line, the protocol and the offset of -v, where the addresses are in the next line."""
    rest = rest_of(line)
    found = DETAILS.match(rest) if rest else None
    return (number, int(found[2]), int(found[1])) if found else None


def read(number, line):
    """The packet of a line that has one, with its line."""
    rest = rest_of(line)
    found = HEADER.match(rest) if rest else None
    if found:
        yield number, spoken(found)
    elif not is_no_packet(line):
        other = None if rest else OTHER.match(line) or OTHER_LINKED.match(line)
        name = next(filter(None, other.groups())) if other else UNKNOWN
        name = NAMES if rest and NAMED.match(rest) else name
        yield number, Unsaid(name.replace("IP6", "IPv6"))


def is_no_packet(line):
    """Whether a line is empty, belongs to the packet above, or is tcpdump's about itself."""
    return bool(NO_PACKET.match(line)) or line.startswith("    ") and not PLAIN.match(line)


def spoken(found, protocol=None, offset=0):
    """The packet of a line's addresses, or why it is left out."""
    source, sport, target, dport, rest = found.groups()
    addresses = address_of(source), address_of(target)
    try:
        if None in addresses or protocol and protocol > LAST_PROTOCOL:
            raise Unsaid(UNKNOWN)
        if offset:
            raise Unsaid(FRAGMENT)
        if protocol is None:
            protocol = protocol_by(sport is not None and dport is not None, rest)
        return Packet(*addresses, *ports_of(protocol, sport, dport), protocol)
    except Unsaid as why:
        return why


def ports_of(protocol, sport, dport):
    """The ports of a line, or 0 in a protocol that has none."""
    if protocol not in WITH_PORTS:
        return 0, 0
    if sport is None or dport is None:
        raise Unsaid("the line has no ports")
    if int(sport) > 65535 or int(dport) > 65535:
        raise Unsaid(UNKNOWN)
    return int(sport), int(dport)


def protocol_by(has_ports, rest):
    """The protocol by the words after the addresses."""
    if has_ports:
        starts = {"Flags [": 6, "tcp ": 6, "sctp": 132, "DCCP": 33}
        return next((number for start, number in starts.items() if rest.startswith(start)), 17)
    bare = BARE.match(rest)
    if bare and bare[2] is None:
        raise Unsaid(FRAGMENT)
    if bare and int(bare[1]) <= LAST_PROTOCOL:
        return int(bare[1])
    for start, number in STARTS.items():
        if rest.startswith(start):
            return number
    raise Unsaid(CUT if rest.startswith("[|") else "unknown protocol")
