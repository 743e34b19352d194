#!/usr/bin/env python3
"""Makes a folder for `desk/openvswitch --network`.

    model/fat_tree.py FOLDER

The network is that of examples/fat_tree, with smaller leaves and one backup, so that a core switch
decides some regions and sends others on. The 300 rows let hosts and pods reach hosts by some ports,
or not. Each of the 1,000 packets is like a row, or has any addresses; it enters at an edge switch
mostly. Messages are delivered now and then, and cache rules expire; no link or switch fails.
"""
import random
import sys
from pathlib import Path

EXAMPLE = Path(__file__).resolve().parent.parent / "examples/fat_tree/net.toml"
ROWS, PACKETS, PODS, SIDES = 300, 1000, 4, 2
PORTS = ["any", "22", "53", "80-95", "443", "1024-65535", "8000-8191"]
OTHERS = [*(f"core{number}" for number in range(PODS)), "agg0-0", "agg3-1"]


def host(rng):
    """The address of a host, and the port by which it is reached."""
    pod, edge, number = rng.randrange(PODS), rng.randrange(SIDES), rng.randrange(2, 250)
    return f"10.{pod}.{edge}.{number}", pod * 4 + edge * 2 + number % 2


def row(rng):
    """The fields of a row from its source on."""
    (target, port), (source, _) = host(rng), host(rng)
    source = rng.choice(["any", "10.0.0.0/8", f"10.{rng.randrange(PODS)}.0.0/16", source])
    if rng.random() < 0.2:
        target = target.rsplit(".", 1)[0] + rng.choice([".0/24", ".64/26", ".128/25"])
    proto = rng.choice(["tcp", "tcp", "udp", "icmp", "any"])
    ports = ["any", rng.choice(PORTS)] if proto in ("tcp", "udp") else ["any", "any"]
    return [source, target, *ports, proto, f"out:{port}" if rng.random() < 0.7 else "drop"]


def width(fields):
    """A number that is the greater, the more addresses a row has."""
    ends = (end.partition("/")[2] or "32" for end in fields[:2] if end != "any")
    return -sum(map(int, ends))


def address(rng, block):
    """An address of a block."""
    base, _, length = ("10.0.0.0/8" if block == "any" else block).partition("/")
    number = int.from_bytes(bytes(map(int, base.split("."))), "big")
    number |= rng.getrandbits(32) % (1 << (32 - int(length or 32)))
    return ".".join(map(str, number.to_bytes(4, "big")))


def port(rng, ports):
    low, _, high = ("0-65535" if ports == "any" else ports).partition("-")
    return str(rng.randint(int(low), int(high or low)))


def packet(rng, like):
    _, source, target, sport, dport, proto, _ = like
    proto = rng.choice(["tcp", "udp", "icmp", "132", "47"]) if proto == "any" else proto
    seen = proto in ("tcp", "udp", "132")
    ports = [port(rng, sport), port(rng, dport)] if seen else ["0", "0"]
    at = f"edge{rng.randrange(PODS)}-{rng.randrange(SIDES)}"
    ends = [address(rng, source), address(rng, target if rng.random() < 0.9 else "any")]
    return ["packet", at if rng.random() < 0.8 else rng.choice(OTHERS), *ends, *ports, proto]


def schedule(rng, rows):
    yield "event", "arguments"
    for number in range(1, PACKETS + 1):
        yield packet(rng, rng.choice(rows))
        if number % 3 == 0:
            yield ("drain",)
        if number % 10 == 0:
            yield ("flush",)
        if number % 50 == 0:
            yield "expire", f"edge{rng.randrange(PODS)}-{rng.randrange(SIDES)}", "0"
    yield ("drain",)


def write(path, records):
    path.write_text("".join(",".join(record) + "\n" for record in records))


def main():
    if len(sys.argv) != 2 or sys.argv[1].startswith("-"):
        sys.exit(__doc__)
    folder, rng = Path(sys.argv[1]), random.Random(2010)
    folder.mkdir(exist_ok=True)
    rows = sorted((row(rng) for _ in range(ROWS)), key=width)
    rows = [[str(ROWS - place), *fields] for place, fields in enumerate(rows)]
    heading = ["priority", "src", "dst", "sport", "dport", "proto", "action"]
    write(folder / "policy.csv", [heading, *rows])
    write(folder / "schedule.csv", schedule(rng, rows))
    net = EXAMPLE.read_text().replace("leaf_rules = 128", "leaf_rules = 64")
    (folder / "net.toml").write_text(net.replace("backups = 3", "backups = 1"))


main()
