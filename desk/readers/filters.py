"""Reads filters as ClassBench writes them (Taylor and Turner, "ClassBench: A Packet Classification
Benchmark", INFOCOM 2005): source, destination, ranges of ports, protocol and, in later files,
flags, the last two each with a mask."""
import re

from readers.common import Unsaid, prefix_of
from readers.rules import LAST_PORT, Rule, prefixes_of, services

FILTER = re.compile(
    r"@(\S+/\d+)\s+(\S+/\d+)\s+(\d{1,5})\s*:\s*(\d{1,5})\s+(\d{1,5})\s*:\s*(\d{1,5})\s+"
    r"0x([0-9a-fA-F]{1,2})/0x([0-9a-fA-F]{1,2})(?:\s+0x([0-9a-fA-F]{1,4})/0x([0-9a-fA-F]{1,4}))?\s*"
)
FLAGS = "it tests flags (--ignore-flags reads it as if it didn't)"


def rules_of(lines, most, ignore_flags):
    """Each filter's line, and its rule or why it is left out; blank lines are skipped."""
    for number, line in enumerate(lines, 1):
        if line.strip():
            try:
                yield number, rule_of(line.strip(), most, ignore_flags)
            except Unsaid as why:
                why.permits = True
                yield number, why


def has_flags(lines):
    """Whether a filter tests flags."""
    found = filter(None, (FILTER.fullmatch(line.strip()) for line in lines))
    return any(int(each[10] or "0", 16) for each in found)


def rule_of(line, most, ignore_flags):
    """The rule of a line, which permits what it matches."""
    found = FILTER.fullmatch(line)
    if not found:
        raise Unsaid("it is not a filter of ClassBench")
    *prefixes, a, b, c, d, protocol, mask, _, flags = found.groups()
    if flags and int(flags, 16) and not ignore_flags:
        raise Unsaid(FLAGS)
    sources, targets = map(block_of, prefixes)
    ranges = range_of(a, b), range_of(c, d)
    protocols = protocols_of(int(protocol, 16), int(mask, 16), most)
    return Rule(True, [sources], [targets], services([ranges[0]], [ranges[1]], protocols))


def block_of(text):
    """A prefix, without the bits after its length."""
    found = prefix_of(text)
    if found is None:
        raise Unsaid(f"{text} is not an IPv4 prefix")
    address, length = found
    return prefixes_of(address, (1 << 32 - length) - 1, 1)[0]


def range_of(first, last):
    low, high = int(first), int(last)
    if not low <= high <= LAST_PORT:
        raise Unsaid(f"{first} : {last} is not a range of ports")
    return low, high


def protocols_of(protocol, mask, most):
    """The protocols that agree with this one where the mask has ones; none means all."""
    if mask == 0:
        return [None]
    found = [number for number in range(256) if number & mask == protocol & mask]
    if len(found) > most:
        raise Unsaid(f"its mask is {len(found)} protocols, and --split allows {most}")
    return found
