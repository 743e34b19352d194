#!/usr/bin/env python3
"""Times what `--quiet` adds to a replay with few or many messages that wait at the end.

usage: bench/quiet.py BIN [RUNS]

BIN is the proved program (`rt run` leaves it in crates/difane/out/difane). Prints a line for each case:
the verdict, the items of the journal, the seconds of the processor without and with
`--quiet`, each the median of RUNS runs (5), and the part that `--quiet` adds.
"""
import os
import statistics
import subprocess
import sys
import tempfile

POLICY = "priority,src,dst,sport,dport,proto,action\n1,any,any,any,any,any,out:1\n"
RESEND = 4034  # messages of a row `resend` to the hub of the star


def star():
    switches = [f'[[switch]]\nname = "s{k}"\nports = [{k}]\n' for k in range(64)]
    switches[0] += "authority = 1000\n"
    return "\n".join(switches + [f'[[link]]\nends = ["s0", "s{k}"]\n' for k in range(1, 64)])


def rows(*parts):
    return "event,arguments\n" + "".join(line + "\n" for part in parts for line in part)


def cases():
    """The name, the schedule, and the names of its policies."""
    hub = "resend,s0"
    one = ["p.csv"]
    yield "246 rows resend", rows([hub] * 246), one
    yield "82 rows resend, flush", rows([hub] * 82, ["flush"]), one
    last = [f"deliver,{240 * RESEND}"]
    yield "240 rows resend, the last message delivered", rows([hub] * 240, last), one
    yield "240 rows resend, the first message delivered", rows([hub] * 240, ["deliver,1"]), one
    delivered = [f"deliver,{n}" for n in range(2, 49 * RESEND + 1, 2)]
    yield "49 rows resend, each second message delivered", rows([hub] * 49, delivered), one
    yield "82 rows resend, flush, one row resend", rows([hub] * 82, ["flush", hub]), one
    yield "50,000 times a leaf crashes and boots", rows(["crash,s1", "restart,s1"] * 50_000), one
    yield "245 times so, the hub resends", rows(["crash,s1", "restart,s1", hub] * 245), one
    fails = ["linkdown,s0,s1", "linkup,s0,s1"]
    yield "3,800 times a link fails and comes back", rows(fails * 3_800), one
    yield "1,600 times so, adverts are delivered", rows([*fails, "flush"] * 1_600), one
    news = [f"update,{n}" for n in range(1, 8)]
    seven = [f"p{n}.csv" for n in range(1, 8)]
    to_leaf, to_all = ["resend,s1"] * 13_000, [f"resend,s{k % 64}" for k in range(7_000)]
    yield "7 updates wait, 13,000 rows resend to a leaf", rows(news, to_leaf), seven
    yield "7 updates wait, 7,000 rows resend to all", rows(news, to_all), seven


def seconds(args, folder):
    with open(os.path.join(folder, "out"), "wb") as out:
        child = subprocess.Popen(args, cwd=folder, stdout=out)
        _, status, used = os.wait4(child.pid, 0)
    return used.ru_utime + used.ru_stime, os.waitstatus_to_exitcode(status)


def last_line(path):
    with open(path, "rb") as file:
        file.seek(max(0, os.path.getsize(path) - 100))
        return file.read().decode().splitlines()[-1]


def main():
    program = os.path.abspath(sys.argv[1])
    runs = int(sys.argv[2]) if len(sys.argv) > 2 else 5
    with tempfile.TemporaryDirectory() as folder:
        with open(os.path.join(folder, "n.toml"), "w") as net:
            net.write(star())
        for name in ["p.csv"] + [f"p{n}.csv" for n in range(1, 8)]:
            with open(os.path.join(folder, name), "w") as policy:
                policy.write(POLICY)
        for name, schedule, policies in cases():
            with open(os.path.join(folder, "s.csv"), "w") as file:
                file.write(schedule)
            args = [program, "replay", "s.csv", *policies, "--net", "n.toml"]
            plain, quiet = [], []
            for _ in range(runs):
                plain.append(seconds(args, folder)[0])
                used, status = seconds(args + ["--quiet"], folder)
                quiet.append(used)
            path = os.path.join(folder, "out")
            with open(path, "rb") as out:
                items = sum(block.count(b"\n") for block in iter(lambda: out.read(1 << 20), b""))
            answer = last_line(path) if status == 0 else f"status {status}"
            play, judged = statistics.median(plain), statistics.median(quiet)
            more = f"+{judged - play:.3f}, {judged / play - 1:.0%}"
            told = f"{play:.3f} s, with --quiet {judged:.3f} s ({more})"
            print(f"{name}: {answer}, {items} lines: {told}", flush=True)


main()
