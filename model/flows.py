#!/usr/bin/env python3
"""Makes a folder for `desk/openvswitch --check`.

    model/flows.py FOLDER
    desk/run FOLDER

Four switches form a ring, two of them are authorities, and leaves have few rules, so that
regions are cut at bits of ports and of protocols too. Half of the 300 rows have ports and any
protocol; the others have one of many protocols, and few have both addresses. The tables of each
switch are those of `model/plan_model.py`. Each of the 600 packets is like a row: it has that row's
protocol, or any one of those with ports.
"""
import random
import subprocess
import sys
from pathlib import Path

HOME = Path(__file__).resolve().parent
ROWS, PACKETS, SWITCHES = 300, 600, 4
BLOCKS = ["10.0.0.0/9", "10.128.0.0/9", "10.64.0.0/10", "10.1.2.0/24", "any", "any"]
PORTS = ["any", "any", "22", "53", "443", "80-95", "1024-65535", "8000-8191"]
NET = "leaf_rules = 128\ncache = 1024\n"


def row(rng, priority):
    ends = [rng.choice(BLOCKS), rng.choice(BLOCKS)]
    protocol = rng.choice(["tcp", "udp", "icmp", str(rng.randrange(256))])
    if rng.random() < 0.5:
        ports, protocol = [rng.choice(PORTS), rng.choice(PORTS[2:])], "any"
    else:
        ports = [rng.choice(PORTS), "any"] if protocol in ("tcp", "udp") else ["any", "any"]
    action = rng.choice(["drop", f"out:{rng.randrange(SWITCHES)}"])
    return [str(priority), *ends, *ports, protocol, action]


def address(rng, block):
    base, _, length = (block if block != "any" else "0.0.0.0/0").partition("/")
    number = int.from_bytes(bytes(map(int, base.split("."))), "big")
    number |= rng.getrandbits(32) % (1 << (32 - int(length)))
    return ".".join(map(str, number.to_bytes(4, "big")))


def port(rng, ports):
    low, _, high = (ports if ports != "any" else "0-65535").partition("-")
    return str(rng.randint(int(low), int(high or low)))


def packet(rng, like):
    _, source, target, sport, dport, protocol, _ = like
    protocol = rng.choice(["tcp", "udp", "132", "1", "47"]) if protocol == "any" else protocol
    ports = [port(rng, sport), port(rng, dport)]
    if protocol not in ("tcp", "udp", "132") and rng.random() < 0.9:
        ports = ["0", "0"]
    switch, ends = f"s{rng.randrange(SWITCHES)}", [address(rng, source), address(rng, target)]
    return ["packet", switch, *ends, *ports, protocol]


def main():
    if len(sys.argv) != 2 or sys.argv[1].startswith("-"):
        sys.exit(__doc__)
    folder, rng = Path(sys.argv[1]), random.Random(2010)
    folder.mkdir(exist_ok=True)
    rows = [row(rng, priority) for priority in range(ROWS, 0, -1)]
    events = [["event", "arguments"]]
    for number in range(PACKETS):
        events += [packet(rng, rng.choice(rows)), ["drain"], ["flush"]]
        if number % 50 == 49:
            events.append(["expire", f"s{rng.randrange(SWITCHES)}", "0"])
    policy = ["priority,src,dst,sport,dport,proto,action", *map(",".join, rows)]
    (folder / "policy.csv").write_text("\n".join(policy) + "\n")
    (folder / "schedule.csv").write_text("\n".join(map(",".join, events)) + "\n")
    net = NET
    for s in range(SWITCHES):
        room = 8192 if s in (1, 2) else 0
        net += f'[[switch]]\nname = "s{s}"\nports = [{s}]\nauthority = {room}\n'
    for s in range(SWITCHES):
        net += f'[[link]]\nends = ["s{s}", "s{(s + 1) % SWITCHES}"]\n'
    (folder / "net.toml").write_text(net)
    for s in range(SWITCHES):
        model = [sys.executable, HOME / "plan_model.py", "policy.csv", f"s{s}", "--net", "net.toml"]
        done = subprocess.run(model, cwd=folder, capture_output=True, text=True, check=True)
        (folder / f"show-s{s}.txt").write_text(done.stdout)


main()
