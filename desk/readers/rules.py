"""A filter as rows of a policy say it: each field is a list of prefixes, ranges or protocols."""
from itertools import product
from math import prod
from typing import NamedTuple

from parts import places  # it puts the model on the path
from readers.common import Unsaid, address_of, address_text, protocol_text

import plan_model

LAST_PORT = 65535
NOTHING = "it matches no packet"
ANY_PORT = (0, LAST_PORT)
ALL_PROTOCOLS = range(256)
ANY_ADDRESS = (0, 0)
ANY_SERVICE = (ANY_PORT, ANY_PORT, None)


class Rule(NamedTuple):
    """What a line says: it matches a header whose source, target and service lie each in one of
    its list. A service is a range of source ports, one of destination ports, and a protocol."""

    permits: bool
    sources: list
    targets: list
    services: list
    has_groups: bool = False

    def rows(self, most):
        """The fields of each of its rows, of which there may be so many."""
        count = len(self.sources) * len(self.targets) * len(self.services)
        if count == 0:
            raise Unsaid(NOTHING)
        if count > most:
            raise Unsaid(f"it takes {count:,} rows, and --split allows {most}")
        found = product(self.sources, self.targets, self.services)
        return [(source, target, *service) for source, target, service in found]

    def within(self, other):
        """The rule for those headers that another one matches too, or nothing without such."""
        sources = pairwise(common_prefix, self.sources, other.sources)
        targets = pairwise(common_prefix, self.targets, other.targets)
        found = pairwise(common_service, self.services, other.services)
        has_headers = sources and targets and found
        return Rule(self.permits, sources, targets, found) if has_headers else None


def pairwise(common, ones, others):
    """What each pair has in common, where it has anything, and each but once."""
    found = (common(one, other) for one in ones for other in others)
    return list(dict.fromkeys(each for each in found if each is not None))


def common_prefix(one, other):
    """The longer one of two prefixes where the other one has it, or nothing."""
    longer, shorter = (one, other) if one[1] > other[1] else (other, one)
    shift = 32 - shorter[1]
    return longer if longer[0] >> shift == shorter[0] >> shift else None


def common_service(one, other):
    """The ports and the protocol that two services have in common, or nothing."""
    ranges = [(max(a, c), min(b, d)) for (a, b), (c, d) in zip(one[:2], other[:2])]
    protocols = {one[2], other[2]} - {None}
    if len(protocols) > 1 or any(low > high for low, high in ranges):
        return None
    return *ranges, next(iter(protocols), None)


def services(sports, dports, protocols):
    """The services of each of these source ports, destination ports and protocols."""
    return list(product(sports, dports, protocols))


def prefixes_of(address, wildcard, most):
    """The prefixes of the addresses that agree with this one but where the wildcard has ones."""
    low = (~wildcard & wildcard + 1).bit_length() - 1
    scattered = [1 << bit for bit in range(low, 32) if wildcard >> bit & 1]
    if 1 << len(scattered) > most:
        count = 1 << len(scattered)
        raise Unsaid(f"its wildcard is {count:,} prefixes, and --split allows {most}")
    found = [address & ~wildcard]
    for bit in scattered:
        found += [each | bit for each in found]
    return [(each, 32 - low) for each in sorted(found)]


def wildcard_prefixes(address, wildcard, most):
    """The prefixes of an address and a wildcard as texts."""
    numbers = address_of(address), address_of(wildcard)
    if None in numbers:
        raise Unsaid(f"{address} {wildcard} is not an address with a wildcard")
    return prefixes_of(*numbers, most)


def beside(prefix):
    """The prefixes of all addresses that a prefix doesn't have."""
    address, length = prefix
    bits = [(1 << 32 - each, each) for each in range(1, length + 1)]
    return [((address ^ bit) & ~(bit - 1), each) for bit, each in bits]


def but(ranges):
    """The ranges of all ports that lie in none of these."""
    found, free = [], 0
    for low, high in sorted(ranges):
        if free < low:
            found.append((free, low - 1))
        free = max(free, high + 1)
    return found + ([(free, LAST_PORT)] if free <= LAST_PORT else [])


def prefix_text(prefix):
    address, length = prefix
    if length == 0:
        return "any"
    return address_text(address) + ("" if length == 32 else f"/{length}")


def range_text(ports):
    if ports == ANY_PORT:
        return "any"
    return str(ports[0]) if ports[0] == ports[1] else f"{ports[0]}-{ports[1]}"


def row_text(priority, fields, action):
    """The row of a policy with these fields."""
    source, target, sport, dport, protocol = fields
    texts = [prefix_text(source), prefix_text(target), range_text(sport), range_text(dport)]
    texts.append("any" if protocol is None else protocol_text(protocol))
    return ",".join([str(priority), *texts, action])


def words_of(fields):
    """How many words of a ternary memory a row takes."""
    return prod(len(list(plan_model.blocks(range_text(ports)))) for ports in fields[2:4])
