#!/usr/bin/env python3
"""The texts of `compile` and `show`, computed independently from their definitions and slowly.

usage: model/plan_model.py POLICY [SWITCH] [--net NET]

It shares nothing with the program. The expected texts of examples/ come from it, and
`checks/examples.py` compares them with it. It reads only accepted files, and refuses only a plan
without room.
"""
import csv
import sys
import tomllib
from functools import cache
from itertools import compress, islice

BITS = 104
SOLO = {"leaf_rules": 8192, "switch": [{"name": "s0", "authority": 8192}]}
PROTOCOLS = {"any": (0, 0), "icmp": (1, 255), "tcp": (6, 255), "udp": (17, 255)}


def address(text):
    if text == "any":
        return 0, 0
    base, _, length = text.partition("/")
    parts = [int(part) for part in base.split(".")]
    mask = (2**32 - 1) >> (32 - int(length or 32)) << (32 - int(length or 32))
    return int.from_bytes(bytes(parts), "big"), mask


def blocks(text):
    """The blocks of a range of ports, the lowest first: each is as long as its start and the end of
    the range let it be."""
    low, high = (0, 65535) if text == "any" else [int(part) for part in (text.split("-") * 2)[:2]]
    while low <= high:
        size = 65536
        while low % size or low + size - 1 > high:
            size //= 2
        yield low, 65536 - size
        low += size


def pack(src, dst, sport, dport, proto):
    return src << 72 | dst << 40 | sport << 24 | dport << 8 | proto


def rows_of(path):
    """The rows of a policy's file, each its fields, as tuples."""
    with open(path, newline="", encoding="utf-8-sig") as file:
        return tuple(tuple(row) for row in csv.reader(file) if row)[1:]


def rules_of(rows):
    """The rules, each a word, a rank, the row's name and its action; and how many words the rows
    have."""
    words = []
    falling = sorted(rows, key=lambda row: -int(row[0]))
    for priority, src, dst, sport, dport, proto, action in falling:
        protocol = PROTOCOLS[proto] if proto in PROTOCOLS else (int(proto), 255)
        for source in blocks(sport):
            for target in blocks(dport):
                fields = zip(address(src), address(dst), source, target, protocol)
                value, mask = (pack(*field) for field in fields)
                words.append(((value & mask, mask), priority, action))
    count = len(words)
    words.append(((0, 0), "default", "drop"))
    return [(word, rank, name, action) for rank, (word, name, action) in enumerate(words)], count


def meet(word, region):
    if (word[0] ^ region[0]) & word[1] & region[1]:
        return None
    return word[0] | region[0], word[1] | region[1]


def halves(region, bit):
    value, mask = region[0], region[1] | 1 << bit
    return (value, mask), (value | 1 << bit, mask)


class Columns:
    """For each bit of a header, the rules that want a 0 there and those that want a 1.

    A set of rules is a number here, whose lowest bit says whether the first rule is in it.
    """

    def __init__(self, rules):
        self.rules = rules
        words = [word for word, *_ in rules]
        zeros, ones = [mask & ~value for value, mask in words], [value for value, _ in words]
        self.wanted = list(zip(columns(zeros), columns(ones)))

    def covering(self, region):
        """The rules that hold each header of the region, and those that do so but for one bit."""
        once = twice = 0
        for bit, (low, high) in enumerate(self.wanted):
            if not region[1] >> bit & 1:
                twice |= once & (low | high)
                once |= low | high
        return ~once, once & ~twice

    def sides(self, inside, region):
        """For each free bit the rules of both halves: those inside that meet a half, up to the
        first one that holds all of it."""
        whole, nearly = self.covering(region)
        for bit, (low, high) in enumerate(self.wanted):
            if not region[1] >> bit & 1:
                yield bit, [
                    up_to(inside & ~other, inside & (whole | nearly & own))
                    for own, other in ((low, high), (high, low))
                ]

    def leaves(self, inside, region, cap):
        """The regions of the leaves, each with its rules, from the rules inside a region on."""
        if inside.bit_count() <= cap:
            yield region, self.narrowed(inside, region)
            return
        least = min(self.sides(inside, region), key=cost)
        for side, half in zip(least[1], halves(region, least[0])):
            yield from self.leaves(side, half, cap)

    def narrowed(self, inside, region):
        """The rules of a set, each with the part of its word that lies in the region."""
        held = compress(self.rules, map(int, f"{inside:b}"[::-1]))
        return [(meet(word, region), *rest) for word, *rest in held]


def columns(numbers):
    """For each bit, from the lowest, a number whose bits are that one of the numbers in turn."""
    spelled = [f"{one:0{BITS}b}" for one in reversed(numbers)]
    return [int("".join(column), 2) for column in zip(*spelled)][::-1]


def up_to(places, ends):
    """Of the places those up to the first end, or all where there is no end."""
    return places & ((ends & -ends) * 2 - 1)


def cost(cut):
    """By the larger side, then by both, and then by the bit."""
    bit, sides = cut
    sizes = [side.bit_count() for side in sides]
    return max(sizes), sum(sizes), bit


def leaves(rules, region, cap, most=None):
    """The leaves of rules that lie in a region, or the first ones of them."""
    return list(islice(Columns(rules).leaves((1 << len(rules)) - 1, region, cap), most))


def targets_of(sizes, rooms, backups):
    hosted, load = [[] for _ in sizes], [0] * len(rooms)
    for part in sorted(range(len(sizes)), key=lambda part: (-sizes[part], part)):
        fit = [s for s in range(len(rooms)) if load[s] + sizes[part] <= rooms[s]]
        hosted[part] = sorted(fit, key=lambda s: (load[s], s))[: 1 + backups]
        if len(hosted[part]) <= backups:
            sys.exit(f"no room for part {part}")
        for s in hosted[part]:
            load[s] += sizes[part]
    return hosted


@cache
def plan_of(rows, network):
    """The switches' names, how many words the rows have, the partitions, and where each is; the
    rows are tuples.
    """
    net = SOLO
    if network is not None:
        with open(network, "rb") as file:
            net = tomllib.loads(file.read().decode("utf-8-sig"))
    names = [row["name"] for row in net["switch"]]
    rules, words = rules_of(rows)
    parts = leaves(rules, (0, 0), net.get("leaf_rules", 64))
    rooms = [row.get("authority", 0) for row in net["switch"]]
    hosted = targets_of([len(part[1]) for part in parts], rooms, net.get("backups", 0))
    return names, words, parts, hosted


def text_of(rows, switch, network):
    return text_by(*plan_of(rows, network), switch)


def text_by(names, words, parts, hosted, switch):
    def word(pair):
        return f"{pair[0]:026x}/{pair[1]:026x}"

    def to(number):
        return " targets" + "".join(" " + names[s] for s in hosted[number])

    def block(number, tail):
        region, held = parts[number]
        lines = [f"part {number} region {word(region)} rules {len(held)}{tail}"]
        for own, rank, name, action in held:
            lines.append(f"  rank {rank} rule {name} word {word(own)} {action}")
        return lines

    if switch is None:
        lines = [f"words {words}", f"partitions {len(parts)}"]
        for number in range(len(parts)):
            lines += block(number, to(number))
    else:
        own = [number for number in range(len(parts)) if names.index(switch) in hosted[number]]
        lines = [f"switch {switch} version 1", f"authority {len(own)}"]
        for number in own:
            lines += block(number, "")
        lines.append(f"partitions {len(parts)}")
        for number, (region, _) in enumerate(parts):
            lines.append(f"part {number} region {word(region)}{to(number)}")
    return "".join(line + "\n" for line in lines)


def main():
    args = sys.argv[1:]
    network = None
    if "--net" in args:
        at = args.index("--net")
        network = args[at + 1]
        del args[at : at + 2]
    if len(args) not in (1, 2):
        sys.exit(__doc__)
    switch = args[1] if len(args) == 2 else None
    sys.stdout.write(text_of(rows_of(args[0]), switch, network))


if __name__ == "__main__":
    main()
