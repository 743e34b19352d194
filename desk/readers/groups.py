"""Reads object groups of IOS: of a configuration, and as `show object-group` prints them."""
import re
from ipaddress import IPv4Address, IPv4Network, collapse_addresses, summarize_address_range

from readers.common import Unsaid, address_of, prefix_of
from readers.rules import ANY_ADDRESS, ANY_PORT, prefixes_of, services
from readers.words import Words

HEADS = [
    re.compile(r"object-group (\S+) (\S+)$", re.I),
    re.compile(r"(network|service) object group (\S+)$", re.I),
]
BOTH = {"tcp-udp": (6, 17), "tcpudp": (6, 17)}
STARTS = re.compile(
    r"(host|range|group-object|description|any|\d+\.\d+\.\d+\.\d+)\b|(tcp|udp|tcp-udp)\b|"
    r"(icmp|ip|sctp|gre|esp|ahp|ospf|eigrp|pim|igmp|ipinip|nos|pcp|\d+)$",
    re.I,
)


class Groups:
    """The members of each group as words, with their lines; `lines` are those that groups have."""

    def __init__(self, lines):
        self.members, self.lines, self.known = {}, set(), {}
        group = None
        for number, line in enumerate(lines, 1):
            text = " ".join(line.split())
            head = next(filter(None, (head.match(text) for head in HEADS)), None)
            if head:
                group = self.members.setdefault((head[1].lower(), head[2]), [])
            elif group is not None and is_member(line, text):
                group.append((number, text.split()))
            elif text:
                group = None
            if group is not None:
                self.lines.add(number)

    def of(self, kind, name, above=()):
        """What a group of this kind has: prefixes, or ports and protocols."""
        if name in above:
            raise Unsaid(f"the object group {name} has itself as a member")
        if (kind, name) not in self.members:
            raise Unsaid(f"there is no {kind} object group {name}")
        if (kind, name) not in self.known:
            self.known[kind, name] = self.read(kind, name, (*above, name))
        return self.known[kind, name]

    def read(self, kind, name, above):
        found = []
        for line, texts in self.members[kind, name]:
            words = Words(texts, 1)
            try:
                found += self.member(kind, words, above)
                words.end()
            except Unsaid as why:
                raise Unsaid(f"line {line} of the object group {name}: {why}") from why
        if not found:
            raise Unsaid(f"the object group {name} is empty")
        return merged(found) if kind == "network" else list(dict.fromkeys(found))

    def member(self, kind, words, above):
        """What a line of a group adds to it."""
        if words.next() == "description":
            words.words.clear()
            return []
        if words.next() == "group-object":
            words.take()
            return self.of(kind, words.name(), above)
        return addresses(words) if kind == "network" else services_of(words)


def is_member(line, text):
    """Whether a line after a group's head belongs to it: it is indented, or begins like one."""
    return bool(text) and (line[0].isspace() or STARTS.match(text) is not None)


def addresses(words):
    """The prefixes of a member: a host, a range, a subnet with its mask, or any."""
    word = words.take()
    if word == "any":
        return [ANY_ADDRESS]
    if word == "host":
        return [words.host()]
    if word == "range":
        return range_prefixes(words.host()[0], words.host()[0])
    length = words.take() if words.next().startswith("/") else ""
    if "/" in word + length:
        found = prefix_of(word + length)
        if found is None:
            raise Unsaid(f"{word + length!r} is not an IPv4 prefix")
        return prefixes_of(found[0], (1 << 32 - found[1]) - 1, 1)
    text = words.take()
    address, mask = address_of(word), address_of(text)
    if None in (address, mask):
        raise Unsaid(f"{word} {text} is not an address with a mask")
    free = ~mask & (1 << 32) - 1
    if free & free + 1:
        raise Unsaid(f"{text} is not a mask of a subnet")
    return prefixes_of(address, free, 1)


def range_prefixes(first, last):
    if last < first:
        raise Unsaid("the range of addresses ends before it begins")
    found = summarize_address_range(IPv4Address(first), IPv4Address(last))
    return [(int(each.network_address), each.prefixlen) for each in found]


def merged(prefixes):
    """The same addresses in as few prefixes as can be."""
    found = collapse_addresses(IPv4Network(prefix) for prefix in prefixes)
    return [(int(each.network_address), each.prefixlen) for each in found]


def services_of(words):
    """The ports and protocols of a member: a protocol, and tests of its ports."""
    protocols = BOTH.get(words.next())
    protocols = [words.protocol()] if protocols is None else words.take() and protocols
    sports = [ANY_PORT]
    if words.next() == "source":
        words.take()
        sports = words.ports(protocols[0])
    return services(sports, words.ports(protocols[0]), protocols)
