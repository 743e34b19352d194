#!/usr/bin/env python3
"""Checks what `desk/policy` makes of access lists and filters: `checks/desk_policy.py [SEED]`.

Random filters of ClassBench, random access lists with object groups, and those of the samples are
compared with their policies, with and without routes: for 1,000 headers each, the line that decides
by the source, evaluated here, is that of the row which decides, and its action is the row's. Lists
that grew at their foot keep the rows that they had.

It ends with 1 where anything differs. Of the script it uses nothing but its output.
"""
import random
import re
import sys
import tempfile
from functools import partial
from pathlib import Path

from desk_kit import SAMPLES, SERVICES, dotted, policy_faults, run
from list_reading import decided, groups_of

LISTS, FILTERS = 12, 6


# ---- random sources


def drawn_address(rng, groups):
    """An address of an entry, and whether a policy can say it."""
    address = dotted(10 << 24 | rng.getrandbits(10))
    choice = rng.randrange(7)
    if choice == 6 and groups:
        return f"object-group {rng.choice(groups)}", True
    if choice == 0:
        return "any", True
    if choice == 1:
        return f"host {address}", True
    if choice == 2:
        wildcard = rng.choice([0x5, 0x101, 0x2FF, 0x10203, 0xFFF00F])
        scattered = bin(wildcard & wildcard + 1).count("1")
        return f"{address} {dotted(wildcard)}", scattered <= 2
    return f"{address} {dotted((1 << rng.randrange(12)) - 1)}", True


def drawn_ports(rng):
    """What an entry says of ports, and whether a packet can have them."""
    first = rng.choice([0, 1, 22, 80, 443, 1023, 65534, 65535, rng.getrandbits(16)])
    choice = rng.randrange(8)
    texts = {
        0: f" eq {first}",
        1: f" eq {first} {rng.getrandbits(10)} 7",
        2: f" neq {first}",
        3: f" range {first} {rng.randrange(first, 65536)}",
        4: f" gt {first}",
        5: f" lt {first}",
        6: f" eq {rng.choice(list(SERVICES))}",
    }
    never = choice == 4 and first == 65535 or choice == 5 and first == 0
    return texts.get(choice, ""), not never


def drawn_groups(rng):
    """The lines of object groups, and the names of those of addresses and of services."""
    lines, names = [], ["N0", "N1", "N2"]
    for at, name in enumerate(names):
        lines.append(f"object-group network {name}")
        lines += [f" group-object {names[at - 1]}"] if at else [" description the first one"]
        for _ in range(3):
            first = 10 << 24 | rng.getrandbits(10)
            last = first + rng.getrandbits(4)
            mask = dotted(0xFFFFFFFF << rng.randrange(8) & 0xFFFFFFFF)
            forms = [f"host {dotted(first)}", f"range {dotted(first)} {dotted(last)}"]
            forms += [f"{dotted(first)} {mask}", f"{dotted(first)} /{rng.randrange(24, 33)}"]
            lines.append(f" {rng.choice(forms)}")
    lines += ["object-group service S0", " tcp eq www", f" tcp-udp range 20 {rng.randrange(20, 90)}"]
    lines += [" udp source gt 1023 lt 1024", " 89"]
    lines += ["object-group service S1", " group-object S0", f" udp eq {rng.getrandbits(10)} 7"]
    return lines, names, ["S0", "S1"]


def drawn_entry(rng, names, services):
    """An entry of an extended list, and whether a policy can say it."""
    protocol = rng.choice(["ip", "tcp", "tcp", "udp", "icmp", "esp", "89"])
    sides = [names, []] if rng.random() < 0.5 else [[], names]  # both make more rows than --split
    (source, a), (target, b) = (drawn_address(rng, side) for side in sides)
    if services and rng.random() < 0.2:
        protocol = f"object-group {rng.choice(services)}"
    (sport, c), (dport, d) = (("", True), ("", True))
    if protocol in ("tcp", "udp"):
        sport, c = drawn_ports(rng) if rng.random() < 0.3 else ("", True)
        dport, d = drawn_ports(rng)
    tail = rng.choice(["", "", "", "", " log", " log-input", " established", " dscp ef"])
    text = f"{protocol} {source}{sport} {target}{dport}{tail}"
    sayable = a and b and c and d and tail in ("", " log", " log-input")
    return rng.choice(["permit ", "deny "]) + text, sayable


def drawn_list(rng, is_numbered):
    """The text of an access list, and the lines that can be said, in the order of its entries."""
    lines, names, services = drawn_groups(rng)
    lines += [] if is_numbered else ["ip access-list extended DRAWN"]
    said = []
    for sequence in rng.sample(range(1, 900), 30):
        entry, sayable = drawn_entry(rng, names, services)
        head = "access-list 150 " if is_numbered else f" {sequence} "
        lines.append(head + entry)
        said += [(0 if is_numbered else sequence, len(lines))] if sayable else []
    return "".join(f"{line}\n" for line in lines), [line for _, line in sorted(said)]


def drawn_filter(rng):
    """A filter of ClassBench, and whether a policy can say it."""
    addresses = [dotted(10 << 24 | rng.getrandbits(10)) for _ in range(2)]
    prefixes = "\t".join(f"{each}/{rng.choice([0, 8, 22, 27, 30, 32])}" for each in addresses)
    ends = [0, 65535, 80, 1024, rng.getrandbits(16)]
    ranges = [sorted(rng.choices(ends, k=2)) for _ in range(2)]
    protocol, mask = rng.choice([6, 17, 1, 47]), rng.choice([0, 255, 255, 255, 254, 128])
    flags = rng.choice(["0x0000/0x0000", "0x0000/0x0000", "0x1000/0x1000"])
    ports = "\t".join(f"{low} : {high}" for low, high in ranges)
    text = f"@{prefixes}\t{ports}\t0x{protocol:02X}/0x{mask:02X}\t{flags}\t"
    return text, mask != 128 and flags.endswith("/0x0000")


def drawn_filters(rng):
    """The text of filters, and the lines that can be said."""
    drawn = [drawn_filter(rng) for _ in range(40)]
    text = "".join(f"{line}\n" for line, _ in drawn)
    return text, [at for at, (_, sayable) in enumerate(drawn, 1) if sayable]


# ---- the comparison


def sources(rng):
    """Names, texts, arguments and sayable lines of the samples and of random sources."""
    folder = SAMPLES["policy"]
    config, shown, core = ((folder / name).read_text()
                           for name in ("edge.cfg", "shown.txt", "groups.cfg"))
    hosts = [16, 17, 19, 20, 21, 24, 27, 28, 29, 31, 32]
    yield "HOSTS-IN", config, ["--list", "HOSTS-IN"], hosts
    yield "MANAGERS", config, ["--list", "MANAGERS"], [12, 13]
    yield "list 10", config, ["--list", "10"], [34, 35, 36, 37]
    yield "list 101", config, ["--list", "101"], [38, 39, 40]
    yield "GUESTS", shown, ["--list", "GUESTS"], [6, 9, 7, 8, 10, 11]
    entries = [at for at, line in enumerate(core.splitlines(), 1)
               if re.match(r" \d+ (permit|deny)", line)]
    yield "CORE-IN", core, [], [at for at in entries if at not in range(132, 136)]
    filters = (folder / "classbench.txt").read_text()
    yield "filters", filters, [], [1, 2, 3, 5, 6, 7, 8, 9, 12]
    for seed in range(LISTS):
        text, said = drawn_list(rng, seed % 2)
        yield f"list drawn {seed}", text, ["--split", "1000"], said
    for seed in range(FILTERS):
        text, said = drawn_filters(rng)
        yield f"filters drawn {seed}", text, [], said


def drawn_routes(rng):
    """Routes as prefixes, lengths and ports."""
    found = {(rng.getrandbits(10) | 10 << 24, rng.choice([8, 22, 25, 28, 32])) for _ in range(8)}
    starts = {(start >> 32 - length << 32 - length, length) for start, length in found}
    return [(dotted(start), length, rng.randrange(64)) for start, length in sorted(starts)]


def all_faults(rng, folder):
    for name, text, args, order in sources(rng):
        routes = drawn_routes(rng)
        rows = ["prefix,port", *(f"{start}/{length},{port}" for start, length, port in routes)]
        (folder / "routes.csv").write_text("".join(f"{row}\n" for row in rows))
        lines = text.splitlines()
        decide = partial(decided, lines, groups_of(lines), order)
        ways = {"--permit": ("out:7", []), "--routes": (folder / "routes.csv", routes)}
        options = [rng.choice(list(ways))] if "drawn" in name else list(ways)
        for option in options:
            value, by = ways[option]
            given = [option, value, *args]
            yield from policy_faults(rng, name, text, folder, given, order, partial(decide, by))


def growth_faults(rng, folder):
    """Lists that grew at their foot, and whose policy isn't the one before with rows behind."""
    for seed in range(4):
        text, _ = drawn_list(rng, 1)
        rows = []
        for lines in (text.splitlines()[:-5], text.splitlines()):
            (folder / "grown").write_text("".join(f"{line}\n" for line in lines))
            rows.append(run("policy", folder / "grown", "--permit", "out:7")[1])
        if not rows[1].startswith(rows[0]) or not rows[0]:
            yield f"list {seed}: rows that were there before are other ones"


def main():
    if len(sys.argv) > 2 or sys.argv[1:] in (["-h"], ["--help"]):
        sys.exit(__doc__)
    rng = random.Random(sys.argv[1] if sys.argv[1:] else "1")
    with tempfile.TemporaryDirectory() as name:
        faults = [*all_faults(rng, Path(name)), *growth_faults(rng, Path(name))]
    print("\n".join(faults) or "lists, object groups, filters and routes: all as by the source")
    sys.exit(bool(faults))


main()
