#!/usr/bin/env python3
"""Times `difane replay` on made schedules and policies.

usage: bench/replay.py BIN

BIN is the proved program (`rt run` leaves it in crates/difane/out/difane). Each case runs in a
folder of its own, with its output sent to a file. Prints a line for each case: seconds, peak memory
in MiB, bytes written. It needs GNU time.
"""
import os
import random
import subprocess
import sys
import tempfile
import time

PACKETS = 100_000


def address(rng):
    return "10.%d.%d.%d" % (rng.randrange(4), rng.randrange(256), rng.randrange(256))


def schedule(rng, packets):
    lines = ["event,arguments"]
    for _ in range(packets):
        ends = address(rng), address(rng)
        ports = rng.randrange(1024, 65536), rng.randrange(1024)
        lines.append("packet,s0,%s,%s,%d,%d,tcp" % (*ends, *ports))
    return "\n".join(lines) + "\n"


def policy(rng, rows):
    lines = ["priority,src,dst,sport,dport,proto,action"]
    for k in range(1, rows + 1):
        action = "drop" if rng.randrange(4) == 0 else "out:%d" % rng.randrange(64)
        blocks = rng.randrange(4), rng.randrange(256), rng.randrange(4)
        lines.append("%d,10.%d.%d.0/24,10.%d.0.0/16,any,any,tcp,%s" % (k, *blocks, action))
    return "\n".join(lines) + "\n"


def run(program, folder, packets, rows):
    # GNU time, a small process, measures the memory: what a child of this script inherits would
    # count as its own.
    with open(os.path.join(folder, "out"), "wb") as out:
        args = ["/usr/bin/time", "-f", "%M", "-o", "memory", program, "replay", "s.csv", "p.csv"]
        begun = time.monotonic()
        status = subprocess.run(args, cwd=folder, stdout=out).returncode
        seconds = time.monotonic() - begun
    if status != 0:
        sys.exit("status %d" % status)
    with open(os.path.join(folder, "memory")) as memory:
        mebibytes = int(memory.read()) / 1024
    size = os.path.getsize(os.path.join(folder, "out"))
    case = f"{packets:6} packets, {rows:4} rows"
    print(f"{case}: {seconds:.3f} s, {mebibytes:.1f} MiB, {size} bytes written")


def main():
    program = os.path.abspath(sys.argv[1])
    rng = random.Random(2010)
    texts = {packets: schedule(rng, packets) for packets in (0, PACKETS)}
    for packets, rows in ((0, 0), (0, 2000), (PACKETS, 0), (PACKETS, 100), (PACKETS, 2000)):
        with tempfile.TemporaryDirectory() as folder:
            for name, content in (("s.csv", texts[packets]), ("p.csv", policy(rng, rows))):
                with open(os.path.join(folder, name), "w") as file:
                    file.write(content)
            run(program, folder, packets, rows)


main()
