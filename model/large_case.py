#!/usr/bin/env python3
"""Makes a folder with a large case: `model/large_case.py FOLDER PACKETS`.

The network is the fat tree of the examples, and each edge switch has its own prefix. Packets
enter at random edges, in flows that repeat, and hop by rows of their own; messages are delivered
in their order, and all that wait after two of the updates. On the way links fail and come back,
and a switch crashes and restarts. The journal is that of `model/slow_replay.py`.
"""
import random
import shutil
import subprocess
import sys
import tomllib
from pathlib import Path

HOME = Path(__file__).resolve().parent
FAT_TREE = HOME.parent / "examples/fat_tree/net.toml"
HOPS = 8  # rows for each packet; where a link fails some need more
SERVICES = [("tcp", 22), ("tcp", 80), ("tcp", 443), ("tcp", 5432), ("udp", 53), ("udp", 123)]


def edges_of(net):
    """The switches with ports, and their ports."""
    return {row["name"]: row["ports"] for row in net["switch"] if row.get("ports")}


def policies(rng, edges):
    """Two policies: rows for services of each edge's prefix, which the second drops more often."""
    for drops in (0.2, 0.4):
        rows = ["priority,src,dst,sport,dport,proto,action"]
        priority = 1000
        for number, ports in enumerate(edges.values()):
            for proto, dport in SERVICES:
                action = "drop" if rng.random() < drops else f"out:{rng.choice(ports)}"
                source = rng.choice(["any", "10.0.0.0/14", f"10.{rng.randrange(8)}.0.0/16"])
                rows.append(f"{priority},{source},10.{number}.0.0/16,any,{dport},{proto},{action}")
                priority -= 1
        yield rows + [f"1,any,any,any,any,any,out:{next(iter(edges.values()))[0]}"]


def packet_row(rng, edges):
    """A packet of one of the flows between edges; few of its ports and addresses differ."""
    here, there = rng.randrange(len(edges)), rng.randrange(len(edges))
    proto, dport = rng.choice(SERVICES)
    ends = f"10.{here}.0.{rng.randrange(4)},10.{there}.1.{rng.randrange(3)}"
    return f"packet,{list(edges)[here]},{ends},{rng.randrange(40000, 40004)},{dport},{proto}"


def schedule(rng, edges, packets):
    """The rows; what isn't a packet, a hop or a delivery stands at shares of the packets."""
    at = {
        packets // 5: ["linkdown,agg0-0,core0"],
        packets // 4: ["update,2", "flush"],
        packets // 2: ["crash,core1"],
        packets * 3 // 5: ["linkup,agg0-0,core0", "confirm,core1"],
        packets * 7 // 10: ["restart,core1"],
        packets * 4 // 5: ["update,1", "flush"],
        packets * 9 // 10: [f"lose,{packets * 9 // 10}", "update,2"],
    }
    rows, message = ["event,arguments"], 0
    for number in range(1, packets + 1):
        rows.append(packet_row(rng, edges))
        rows += [f"hop,{number}"] * HOPS if number not in at else at[number]
        if number % 3:
            message += 1
            rows.append(f"deliver,{message}")
    return rows


def make(folder, packets):
    """Writes the folder's files, and the journal last."""
    rng, folder = random.Random(2010), Path(folder)
    folder.mkdir(exist_ok=True)
    shutil.copy(FAT_TREE, folder / "net.toml")
    edges = edges_of(tomllib.loads(FAT_TREE.read_text()))
    texts = dict(zip(("policy.csv", "policy2.csv"), policies(rng, edges)))
    texts["schedule.csv"] = schedule(rng, edges, packets)
    for name, rows in texts.items():
        (folder / name).write_text("".join(f"{row}\n" for row in rows))
    args = ["schedule.csv", "policy.csv", "policy2.csv", "--net", "net.toml"]
    with open(folder / "journal.txt", "w") as journal:
        command = [sys.executable, HOME / "slow_replay.py", *args]
        subprocess.run(command, cwd=folder, stdout=journal, check=True)


if __name__ == "__main__":
    if len(sys.argv) != 3 or not sys.argv[2].isdecimal():
        sys.exit(__doc__)
    make(sys.argv[1], int(sys.argv[2]))
