#!/usr/bin/env python3
"""Times `difane replay --net` on made schedules over a ring of 16 switches.

usage: bench/worlds.py BIN

BIN is the proved program (`rt run` leaves it in crates/difane/out/difane). Port i is at switch i;
two opposite switches are authorities. A schedule has 33,000 packets: without a drain, with a drain
after each, or with a drain and a flush, so that the cache rules that authorities send are delivered. Two
more have 60 updates, each with 400 drained packets and a flush, and 100,000 updates that are
refused. Each case runs in a folder of its own, with its output sent to a file. Prints a line for
each case: seconds, peak memory in MiB, items and bytes of the journal written. It needs GNU time.
"""
import os
import random
import subprocess
import sys
import tempfile
import time

PACKETS = 33_000
SWITCHES = 16
CASES = {"": [], ", each drained": ["drain"], ", each drained and flushed": ["drain", "flush"]}


def network():
    lines = ["leaf_rules = 32", "backups = 1", "cache = 64"]
    for s in range(SWITCHES):
        lines += ["[[switch]]", 'name = "n%d"' % s, "ports = [%d]" % s]
        if s in (0, SWITCHES // 2):
            lines.append("authority = 8192")
    for s in range(SWITCHES):
        lines += ["[[link]]", 'ends = ["n%d", "n%d"]' % (s, (s + 1) % SWITCHES)]
    return "\n".join(lines) + "\n"


def policy(rng, rows):
    lines = ["priority,src,dst,sport,dport,proto,action"]
    for k in range(1, rows):
        action = "drop" if rng.randrange(4) == 0 else "out:%d" % rng.randrange(SWITCHES)
        blocks = rng.randrange(4), rng.randrange(256), rng.randrange(4)
        lines.append("%d,10.%d.%d.0/24,10.%d.0.0/16,any,any,tcp,%s" % (k, *blocks, action))
    lines.append("%d,any,any,any,any,any,out:0" % rows)
    return "\n".join(lines) + "\n"


def address(rng):
    return "10.%d.%d.%d" % (rng.randrange(4), rng.randrange(256), rng.randrange(256))


def packet(rng):
    switch, ends = rng.randrange(SWITCHES), (address(rng), address(rng))
    ports = rng.randrange(1024, 65536), rng.randrange(1024)
    return "packet,n%d,%s,%s,%d,%d,tcp" % (switch, *ends, *ports)


def schedule(rng, after):
    lines = ["event,arguments"]
    for _ in range(PACKETS):
        lines.append(packet(rng))
        lines += after
    return "\n".join(lines) + "\n"


def updates(rng):
    lines = ["event,arguments"]
    for k in range(60):
        lines.append("update,%d" % (2 - k % 2))
        for _ in range(400):
            lines += [packet(rng), "drain"]
        lines.append("flush")
    return "\n".join(lines) + "\n"


def run(program, name, files):
    with tempfile.TemporaryDirectory() as folder:
        for file, content in files.items():
            with open(os.path.join(folder, file), "w") as out:
                out.write(content)
        policies = [file for file in files if file.startswith("p")]
        time_in(program, folder, name, ["replay", "s.csv", *policies, "--net", "n.toml"])


def time_in(program, folder, name, args):
    # GNU time, a small process, measures the memory: what a child of this script inherits would
    # count as its own.
    with open(os.path.join(folder, "out"), "wb") as out:
        timed = ["/usr/bin/time", "-f", "%M", "-o", "memory", program, *args]
        begun = time.monotonic()
        status = subprocess.run(timed, cwd=folder, stdout=out).returncode
        seconds = time.monotonic() - begun
    if status != 0:
        sys.exit("status %d" % status)
    with open(os.path.join(folder, "memory")) as memory:
        mebibytes = int(memory.read()) / 1024
    with open(os.path.join(folder, "out"), "rb") as out:
        text = out.read()
    wrote = f"{text.count(bytes([10]))} items, {len(text)} bytes written"
    print(f"{name}: {seconds:.3f} s, {mebibytes:.1f} MiB, {wrote}")


def main():
    program = os.path.abspath(sys.argv[1])
    rng = random.Random(2010)
    for rows in (100, 2000):
        for case, after in CASES.items():
            files = {"n.toml": network(), "p.csv": policy(rng, rows)}
            files["s.csv"] = schedule(rng, after)
            run(program, f"{PACKETS} packets{case}, {rows:4} rows", files)
    two = {"n.toml": network(), "p1.csv": policy(rng, 2000), "p2.csv": policy(rng, 2000)}
    run(program, "60 updates, 24000 packets, 2000 rows", {**two, "s.csv": updates(rng)})
    wide = policy(rng, 1)
    wide += "".join(f"{k},any,any,1-65534,1-65534,any,drop\n" for k in range(2, 7))
    refused = "event,arguments\n" + "update,2\n" * 100_000
    run(program, "100000 refused updates", {**two, "p2.csv": wide, "s.csv": refused})


main()
