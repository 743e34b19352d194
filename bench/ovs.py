#!/usr/bin/env python3
"""Times lookups of Open vSwitch and packet rows of the program, on the same tables.

usage: bench/ovs.py BIN

BIN is the proved program (`rt run` leaves it in crates/difane/out/difane). The policies are those
of `bench/replay.py` with 100 and 2,000 rows, whose prefixes have two lengths, and the scattered one
of `bench/plans.py` with 1,000 rows, whose prefixes have all. What `BIN show` says of the one switch
becomes flows as `desk/openvswitch` makes them, in an Open vSwitch in user space with a dummy
datapath. Both get the same packets, each of which a random row's blocks hold. Prints a line a
figure: for each policy microseconds of the processor a packet, and packets a second, the least of
three runs.

- *trace, a process each*: `ovs-appctl ofproto/trace`. *bare* is `ovs-appctl version`, which asks
  nothing: the difference is the trace, with its text.
- *trace, one connection*: the same over one socket to `ovs-vswitchd`, beside `version` there.
- *uncached packet*: a packet through the datapath for which its cache has no flow: the lookups in
  the two tables of OpenFlow, and the flow that is put into the cache. The datapath's thread counts
  its cycles, so nothing is parsed or started. *one flow*: the same with one flow in the place of
  the rules, and a cached flow of its own for each packet too; the difference is the classifier.
- *cached packet*: a packet for which the cache has a flow.
- *packet row*: a packet of `BIN replay`, by the difference of 20,000 and 100,000 rows, so without
  the start and the policy: its row is read as CSV and looked up, and three lines are written.

It needs Open vSwitch's tools (Debian's package openvswitch-switch). What isn't compared is listed in
`bench/README.md`.
"""
import os
import re
import resource
import subprocess
import sys
import tempfile
import time
from pathlib import Path
from random import Random
from statistics import median

from plans import HEADER, dotted, scattered

HOME = Path(__file__).resolve().parent.parent
sys.path.append(str(HOME / "desk"))
from bridges import daemon, flows, lookups, tables  # noqa: E402

RUNS = 3
TRACED, SENT = 500, 2_000
ROWS = 20_000, 100_000
BATCH = 50  # a dummy port has room for 100 packets
PATIENCE = 20.0  # seconds until a batch is through


# ---- policies and packets


def replayed(rng, rows):
    """A policy as `bench/replay.py` makes it."""
    def row(k):
        action = "drop" if rng.randrange(4) == 0 else f"out:{rng.randrange(64)}"
        blocks = rng.randrange(4), rng.randrange(256), rng.randrange(4)
        return "%d,10.%d.%d.0/24,10.%d.0.0/16,any,any,tcp,%s" % (k, *blocks, action)
    return "".join(f"{line}\n" for line in [HEADER, *map(row, range(1, rows + 1))])


def inside(rng, block):
    """An address of the block."""
    if block == "any":
        return dotted(rng.getrandbits(32))
    base, length = block.split("/")
    start = int.from_bytes(map(int, base.split(".")))
    return dotted(start + rng.getrandbits(32) % (1 << 32 - int(length)))


def headers(rng, policy, count):
    """Headers of packets, each with the addresses of some row."""
    rows = [line.split(",") for line in policy.splitlines()[1:]]
    for _ in range(count):
        _, src, dst, _, dport, *_ = rng.choice(rows)
        port = dport if dport != "any" else str(rng.randrange(1024))
        yield [inside(rng, src), inside(rng, dst), str(rng.randrange(1024, 65536)), port, "tcp"]


# ---- Open vSwitch


class Bridge(daemon.OpenVSwitch):
    """An Open vSwitch with one bridge br0, whose port `in` has a thread that counts its cycles."""

    def load(self, own):
        named = sorted(set(re.findall(r"output:([\w-]+)", str(own))))
        ports = {"in": ("type=dummy-pmd",), **dict.fromkeys(named, daemon.DUMMY)}
        self.configure(*daemon.bridge_args("br0", ports))
        self.add("br0", own)

    def counted(self):
        """What the thread counted so far: its packets, those without a cached flow, and the cycles
        that they took."""
        told = self.ask("dpif-netdev/pmd-stats-show")
        names = "packets received", "miss with success upcall", "processing cycles"
        return [int(re.search(rf"  {name}: (\d+)", told)[1]) for name in names]

    def pass_through(self, batch):
        """How many packets of a batch had no cached flow, and the cycles of each packet."""
        before = self.counted()
        self.ask("netdev-dummy/receive", "in", *batch)
        until = time.monotonic() + PATIENCE
        while True:
            received, missed, cycles = (new - old for new, old in zip(self.counted(), before))
            if received == len(batch):
                return missed, cycles / received
            if time.monotonic() > until:
                raise daemon.Failed("a packet didn't reach the datapath")

    def send(self, packets):
        """How many packets had no cached flow, and the cycles of each: the median of batches, since
        the thread may have to wait for its processor in some."""
        starts = range(0, len(packets), BATCH)
        told = [self.pass_through(packets[start : start + BATCH]) for start in starts]
        return sum(missed for missed, _ in told), median(cycles for _, cycles in told)

    def spent(self):
        """Seconds of the processor of the thread that answers, and of processes that ended."""
        own = self.started[-1].pid
        nanoseconds = Path(f"/proc/{own}/task/{own}/schedstat").read_text().split()[0]
        ended = resource.getrusage(resource.RUSAGE_CHILDREN)
        return int(nanoseconds) / 1e9 + ended.ru_utime + ended.ru_stime

    def hertz(self):
        """The cycles of a second."""
        self.ask("dpif-netdev/pmd-stats-clear")
        time.sleep(0.5)
        told = self.ask("dpif-netdev/pmd-perf-show")
        cycles = re.search(r"Used TSC cycles: +(\d+)", told)
        seconds = re.search(r"Measurement duration: ([\d.]+) s", told)
        return int(cycles[1]) / float(seconds[1])


def asked(bridge, action, values):
    """Microseconds of the processor for an action, over these values: the least of some runs."""
    def once():
        before = bridge.spent()
        for value in values:
            action(value)
        return (bridge.spent() - before) / len(values)

    return min(once() for _ in range(RUNS)) * 1e6


def traces(bridge, packets):
    """The figures of traces, and of a question that asks nothing."""
    control = f"--target={bridge.folder}/ovs-vswitchd.ctl"

    def appctl(words):
        subprocess.run(["ovs-appctl", control, *words], stdout=subprocess.DEVNULL, check=True)

    def ask(words):
        bridge.ask(*words)

    words = [["ofproto/trace", "br0", f"in_port=in,{text}"] for text in packets]
    bare = [["version"]] * len(words)
    yield "trace, a process each", asked(bridge, appctl, words)
    yield "trace, a process each, bare", asked(bridge, appctl, bare)
    yield "trace, one connection", asked(bridge, ask, words)
    yield "trace, one connection, bare", asked(bridge, ask, bare)


def sent(bridge, packets):
    """Seconds of a packet that no cached flow is for, and then of one that some is for."""
    bridge.ask("revalidator/purge")
    rate = bridge.hertz()
    missed, uncached = bridge.send(packets)
    later, cached = bridge.send(packets)
    # Here and there one cached flow is for two packets.
    if missed < 0.99 * len(packets) or later:
        sys.exit(f"{missed} and {later} of {len(packets)} packets had no cached flow")
    return uncached / rate, cached / rate


def through_datapath(bridge, packets):
    runs = [sent(bridge, packets) for _ in range(RUNS)]
    uncached, cached = (min(seconds) * 1e6 for seconds in zip(*runs))
    yield "uncached packet", uncached
    bridge.run("ovs-ofctl", "del-flows", "br0")
    bridge.add("br0", [*flows.copying(0), "table=1,ip,actions=drop"])
    bridge.ask("upcall/disable-megaflows")
    yield "uncached packet, one flow", min(sent(bridge, packets)[0] for _ in range(RUNS)) * 1e6
    yield "cached packet", cached


def open_vswitch(program, folder, drawn):
    """The flows of the policy in this folder, and the figures of Open vSwitch."""
    command = [program, "show", "p.csv", "s0"]
    shown = subprocess.run(command, cwd=folder, capture_output=True, text=True, check=True)
    held, _ = tables.read_tables(shown.stdout)
    own = list(lookups.flows_of(held))
    with Bridge() as bridge:
        bridge.load(own)
        yield from traces(bridge, [flows.fields_of(*header) for header in drawn[:TRACED]])
        packets = [flows.packet_of(*header) for header in drawn[:SENT]]
        yield from through_datapath(bridge, packets)


# ---- the program


def replay(program, folder, drawn, rows):
    """Seconds of the processor for a replay of so many packet rows."""
    lines = [f"packet,s0,{','.join(header)}\n" for header in drawn[:rows]]
    Path(folder, "s.csv").write_text("event,arguments\n" + "".join(lines))

    def once():
        with open(os.path.join(folder, "out"), "wb") as out:
            child = subprocess.Popen([program, "replay", "s.csv", "p.csv"], cwd=folder, stdout=out)
            _, status, used = os.wait4(child.pid, 0)
        child.returncode = os.waitstatus_to_exitcode(status)
        if status:
            sys.exit(f"the program ends with status {child.returncode}")
        return used.ru_utime + used.ru_stime

    return min(once() for _ in range(RUNS))


def packet_row(program, folder, drawn):
    """Microseconds of a row."""
    few, many = (replay(program, folder, drawn, rows) for rows in ROWS)
    return (many - few) / (ROWS[1] - ROWS[0]) * 1e6


def figures(program, policy):
    """The microseconds of each figure."""
    drawn = list(headers(Random(2010), policy, ROWS[1]))
    with tempfile.TemporaryDirectory() as folder:
        Path(folder, "p.csv").write_text(policy)
        yield "packet row", packet_row(program, folder, drawn)
        yield from open_vswitch(program, folder, drawn)


def main():
    if len(sys.argv) != 2:
        sys.exit(__doc__)
    if daemon.missing_tool():
        sys.exit(f"{daemon.missing_tool()} isn't installed")
    program = os.path.abspath(sys.argv[1])
    policies = {f"{rows:,} rows": replayed(Random(rows), rows) for rows in (100, 2000)}
    policies["1,000 scattered"] = scattered(Random(1000), 1000)
    told = [dict(figures(program, policy)) for policy in policies.values()]
    print(f"{'':28}" + "".join(f"{name:>27}" for name in policies))
    for name in told[0]:
        taken = (own[name] for own in told)
        line = "".join(f"{each:10.2f} us {1e6 / each:9,.0f} /s " for each in taken)
        print(f"{name:28} {line}")


main()
