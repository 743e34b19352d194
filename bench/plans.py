#!/usr/bin/env python3
"""Times `compile` and `show` of the built program: `bench/plans.py BIN`.

Policies of 500, 1,000 and 2,000 rows are cut into leaves of at most 32 rules. *Subnets* are those
of `bench/replay.py`, on one switch; *scattered* rows have random prefixes from /8 to /32, on four
switches, for more rules than one has room for. Then a policy is cut into 512 partitions at two of
64 switches each. Each figure is the least of several runs, including the start of the process.
"""
import os
import random
import subprocess
import sys
import tempfile
import time

RUNS = 7
HEADER = "priority,src,dst,sport,dport,proto,action"


def text(rows):
    numbered = [f"{k},{row}" for k, row in enumerate(rows, 1)]
    return "".join(line + "\n" for line in [HEADER, *numbered])


def subnets(rng, count):
    def row():
        action = "drop" if rng.randrange(4) == 0 else "out:0"
        src = f"10.{rng.randrange(4)}.{rng.randrange(256)}.0/24"
        return f"{src},10.{rng.randrange(4)}.0.0/16,any,any,tcp,{action}"

    return text([row() for _ in range(count)])


def dotted(number):
    return ".".join(str(number >> shift & 255) for shift in (24, 16, 8, 0))


def prefix(rng):
    length = rng.randint(8, 32)
    return f"{dotted(rng.getrandbits(32) >> (32 - length) << (32 - length))}/{length}"


def scattered(rng, count):
    """A quarter of the addresses are `any`, never both of a row; half of the destination ports are
    exact."""

    def row():
        free = rng.choice(["src", "dst", "none", "none"])
        src = "any" if free == "src" else prefix(rng)
        dst = "any" if free == "dst" else prefix(rng)
        port = str(rng.getrandbits(16)) if rng.random() < 0.5 else "any"
        proto, action = rng.choice(["tcp", "udp", "any"]), rng.choice(["drop", "out:0"])
        return f"{src},{dst},any,{port},{proto},{action}"

    return text([row() for _ in range(count)])


def in_512_parts():
    """Three rows for each of the 512 blocks /9 of destinations."""
    blocks = [f"{dotted(k << 23)}/9" for k in range(512)]
    kinds = ("any,any", "80,tcp", "53,udp")
    return text([f"any,{block},any,{kind},out:0" for block in blocks for kind in kinds])


def network(leaf_rules, backups, switches):
    rows = [f'{{ name = "s{s}", ports = [{s}], authority = 8192 }}' for s in range(switches)]
    return f"leaf_rules = {leaf_rules}\nbackups = {backups}\nswitch = [{', '.join(rows)}]\n"


def timed(program, args, policy, net):
    """The least seconds of some runs, the peak memory in MiB, and the output, or the line of the
    refusal."""
    command = [program, *args, "--net", "n.toml"]
    with tempfile.TemporaryDirectory() as folder:
        for name, content in (("p.csv", policy), ("n.toml", net)):
            with open(os.path.join(folder, name), "w") as file:
                file.write(content)
        least = None
        for _ in range(RUNS):
            with open(os.path.join(folder, "out"), "wb") as out:
                begun = time.monotonic()
                done = subprocess.run(command, cwd=folder, stdout=out, stderr=subprocess.PIPE)
                seconds = time.monotonic() - begun
            least = seconds if least is None else min(least, seconds)
        # GNU time, a small process, measures the memory: what a child of this script inherits would
        # count as its own.
        measured = ["/usr/bin/time", "-q", "-f", "%M", "-o", "memory", *command]
        subprocess.run(measured, cwd=folder, stdout=subprocess.DEVNULL, stderr=subprocess.DEVNULL)
        with open(os.path.join(folder, "memory")) as file:
            memory = int(file.read()) / 1024
        with open(os.path.join(folder, "out")) as file:
            return least, memory, file.read(), done.stderr.decode().strip()


def told(output, line):
    if line:
        return line
    lines = output.split("\n")
    rules = sum(1 for line in lines if line.startswith("  rank "))
    return f"{lines[1]}, {rules} rules, {len(output)} bytes written"


def tell(case, program, args, policy, net):
    seconds, memory, output, line = timed(program, args, policy, net)
    print(f"{case}: {seconds * 1000:6.1f} ms, {memory:.1f} MiB, {told(output, line)}")


def main():
    if len(sys.argv) != 2:
        sys.exit(__doc__)
    program = os.path.abspath(sys.argv[1])
    for name, make, switches in (("subnets", subnets, 1), ("scattered", scattered, 4)):
        for rows in (500, 1000, 2000):
            policy, net = make(random.Random(rows), rows), network(32, 0, switches)
            tell(f"compile, {rows:4} rows, {name:9}", program, ["compile", "p.csv"], policy, net)
    for args in (["compile", "p.csv"], ["show", "p.csv", "s7"]):
        policy, net = in_512_parts(), network(3, 1, 64)
        tell(f"{args[0]:7}, 1536 rows, 64 switches", program, args, policy, net)


if __name__ == "__main__":
    main()
