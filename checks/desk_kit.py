"""What the checks of `desk/policy`, `desk/traffic` and `desk/topology` share."""
import csv
import re
import subprocess
import sys
from functools import cache
from pathlib import Path

HOME = Path(__file__).resolve().parent.parent
EXAMPLES, DESK = HOME / "examples", HOME / "desk"
SAMPLES = {name: EXAMPLES / f"{name}_samples" for name in ("traffic", "policy", "topology")}
HEADERS = 1000
SERVICES = {"www": 80, "domain": 53, "ntp": 123, "smtp": 25, "telnet": 23, "bootps": 67}
SERVICES |= {"netbios-ss": 139, "snmp": 161, "sunrpc": 111, "isakmp": 500, "non500-isakmp": 4500}
PROTOCOLS = {"icmp": 1, "igmp": 2, "tcp": 6, "udp": 17, "gre": 47, "esp": 50, "ospf": 89}
PROTOCOLS["sctp"] = 132


def run(script, *args, cwd=None):
    """The status of a script, what it wrote, and what it said."""
    command = [sys.executable, str(DESK / script), *map(str, args)]
    done = subprocess.run(command, cwd=cwd, capture_output=True)
    return done.returncode, done.stdout, done.stderr.decode()


@cache
def number(text):
    """The number of an address."""
    return int.from_bytes(bytes(map(int, text.split("."))), "big")


def dotted(address):
    return ".".join(str(address >> shift & 255) for shift in (24, 16, 8, 0))


def row_fits(row, header):
    for text, address in zip(row[1:3], header[:2]):
        prefix, _, length = text.partition("/")
        if text != "any" and (number(prefix) ^ address) >> 32 - int(length or 32):
            return False
    for text, port in zip(row[3:5], header[2:4]):
        low, _, high = text.partition("-")
        if text != "any" and not int(low) <= port <= int(high or low):
            return False
    return row[5] == "any" or (PROTOCOLS.get(row[5]) or int(row[5])) == header[4]


def drawn_header(rng, texts):
    """A header whose fields are in these lines, or near to them."""
    line = rng.choice(texts)
    addresses = re.findall(r"\d+\.\d+\.\d+\.\d+", line) or ["10.0.0.1"]
    ports = [int(text) for text in re.findall(r"(?<![\d./x])\d{1,5}(?![\d.])", line)]
    ports += [port for name, port in SERVICES.items() if name in line] + [rng.getrandbits(16)]
    ends = [number(rng.choice(addresses)) for _ in range(2)] if rng.random() < 0.3 else None
    ends = ends or [number(addresses[0]), number(addresses[-1])]
    for place in range(2):
        for _ in range(rng.choice([0, 0, 0, 1, 2])):
            ends[place] ^= 1 << rng.randrange(12 if rng.random() < 0.7 else 32)
    chosen = [min(65535, max(0, rng.choice(ports) + rng.choice([0, 0, -1, 1]))) for _ in range(2)]
    named = [value for name, value in PROTOCOLS.items() if name in line]
    named += [int(text, 16) for text in re.findall(r"0x(\w\w)/", line)]
    protocol = rng.choice(named or [6, 17]) if rng.random() < 0.8 else rng.getrandbits(8)
    return ends[0], ends[1], *chosen, protocol


def policy_faults(rng, name, text, folder, args, order, decide, idle=()):
    """What a policy decides otherwise than its source: `order` has the lines that can be said, of
    which the idle ones may have no row; `decide` gives for a header the line and the action, or
    nothing."""
    path, said = folder / "source", folder / "lines.csv"
    path.write_text(text)
    status, written, told = run("policy", path, "--lines", said, *args)
    if status:
        yield f"{name}: status {status}: {told}"
    if status or "beyond the" in told:
        return
    rows = [row for row in csv.reader(written.decode().splitlines()[1:])]
    rows.sort(key=lambda row: -int(row[0]))
    with said.open(newline="") as file:
        line_of = {priority: int(line) for priority, line, _ in list(csv.reader(file))[1:]}
    differ = set(line_of.values()) ^ set(order)
    if len({row[0] for row in rows}) != len(rows) or differ - set(idle) & set(order):
        yield f"{name}: the lines {sorted(differ)} are said or not"
        return
    lines = text.splitlines()
    for _ in range(HEADERS):
        header = drawn_header(rng, [lines[at - 1] for at in order])
        row = next((row for row in rows if row_fits(row, header)), None)
        if (row and (line_of[row[0]], row[6])) != (wanted := decide(header)):
            yield f"{name}: header {header}: row {row}, and not {wanted}"
            return
