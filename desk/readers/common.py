"""What the scripts that make files share: what is left out, what they write, texts and numbers."""
import argparse
import io
import re
import sys
from functools import lru_cache

from parts.places import file_of
from parts.script import Mistake as Refused
from parts.words import dotted

address_text = lru_cache(1 << 16)(dotted)
SHOWN = 20  # reasons, and ranges of a reason, that a summary names
ADDRESS = re.compile(r"(\d{1,3})\.(\d{1,3})\.(\d{1,3})\.(\d{1,3})", re.ASCII)
KNOWN = (
    "icmp 1 igmp 2 ipip 4 ipinip 4 nos 4 tcp 6 udp 17 dccp 33 rsvp 46 gre 47 esp 50 ah 51 ahp 51 "
    "eigrp 88 ospf 89 pim 103 pcp 108 vrrp 112 sctp 132 udplite 136"
).split()
NUMBERS = dict(zip(KNOWN[::2], map(int, KNOWN[1::2])))
NAMES = {1: "icmp", 6: "tcp", 17: "udp"}


class Unsaid(Exception):
    """A line or a packet that difane's files can't express; the text says why.

    Of a line of a policy `permits` says whether it permits; nothing where that isn't known.
    """

    def __init__(self, why, permits=None):
        super().__init__(why)
        self.permits = permits


class Named:
    """Lines or packets by what is said of them: for each such text their numbers, as ranges."""

    def __init__(self, what):
        self.what, self.numbers, self.ranges = what, set(), {}

    def add(self, number, why):
        ranges = self.ranges.setdefault(str(why), [])
        if number in self.numbers and any(a <= number <= b for a, b in ranges):
            return
        self.numbers.add(number)
        if ranges and ranges[-1][1] == number - 1:
            ranges[-1][1] = number
        else:
            ranges.append([number, number])

    def lines(self, begin, shown):
        """A line for each text, of which at most so many are shown; likewise of its ranges."""
        for why, ranges in list(self.ranges.items())[:shown]:
            texts = [str(a) if a == b else f"{a}-{b}" for a, b in ranges[:shown]]
            plural = "" if ranges[0] == [ranges[-1][1]] * 2 else "s"
            numbers = ", ".join(texts)
            yield f"{begin}, {why}: {self.what}{plural} {numbers}{more(ranges, shown)}"
        if len(self.ranges) > shown:
            yield f"{begin}, for other reasons:{more(self.ranges, shown)}"


def more(items, shown):
    return f" and {len(items) - shown:,} more; --all names them" if len(items) > shown else ""


@lru_cache(maxsize=1 << 16)
def address_of(text):
    """The number of an IPv4 address, or nothing."""
    found = ADDRESS.fullmatch(text)
    octets = [int(part) for part in found.groups()] if found else [256]
    return None if max(octets) > 255 else int.from_bytes(octets, "big")


def prefix_of(text):
    """The address and the length of a prefix, or nothing; 32 is the length of an address."""
    address, slash, length = text.partition("/")
    if slash and not re.fullmatch(r"[0-9]{1,2}", length) or address_of(address) is None:
        return None
    length = int(length) if slash else 32
    return (address_of(address), length) if length <= 32 else None


def protocol_of(text):
    """The number of a protocol by its name or in digits, or nothing."""
    if re.fullmatch(r"[0-9]{1,3}", text):
        return int(text) if int(text) < 256 else None
    return NUMBERS.get(text.lower())


def protocol_text(protocol):
    return NAMES.get(protocol, str(protocol))


def number_from(least, most):
    """The type of an argument that is a number of this range."""

    def number(text):
        if not re.fullmatch(r"[0-9]{1,9}", text) or not least <= int(text) <= most:
            raise argparse.ArgumentTypeError(f"{text!r} is not a number from {least} to {most}")
        return int(text)

    return number


def add_common(parser):
    """The arguments of all these scripts."""
    parser.add_argument("file", nargs="?", metavar="FILE")
    parser.add_argument("--strict", action="store_true")
    parser.add_argument("--all", action="store_true")


def opened(name):
    """The bytes of a file, or of standard input where no name or a dash is given."""
    if name == "" or name is None and sys.stdin.isatty():
        raise Refused("no FILE is given; --help says what it is")
    return sys.stdin.buffer if name in (None, "-") else open(file_of(name), "rb")


def lines_of(data):
    """The lines of a text in UTF-8, or in UTF-16 where it begins so."""
    if not data.strip():
        raise Refused("the file is empty")
    is_wide = data[:2] in (b"\xff\xfe", b"\xfe\xff")
    return list(io.StringIO(data.decode("utf-16" if is_wide else "utf-8-sig", "replace"), None))


def finish(name, args, rows, told, left, *others):
    """Prints what is told and left out, and the rows unless --strict; returns the status."""
    shown = sys.maxsize if args.all else SHOWN
    lines = [*told, *left.lines("left out", shown)]
    for begin, named in others:
        lines += named.lines(begin, shown)
    for line in lines:
        print(f"desk/{name}: {line}", file=sys.stderr)
    if args.strict and left.numbers:
        print(f"desk/{name}: --strict: nothing is written", file=sys.stderr)
        return 1
    sys.stdout.write("".join(f"{row}\n" for row in rows))
    sys.stdout.flush()
    return 0
