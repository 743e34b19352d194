#!/usr/bin/env python3
"""Plays random schedules by the program and by the slow model, and compares what both print.

usage: model/fuzz.py BIN COUNT [START] [--jobs N]

BIN is the program (`rt run` leaves it in crates/difane/out/difane). Each seed from START on (0
where it isn't given) makes a network of two to five switches, a policy, two more policies or
changes, and a schedule of 10 to 60 rows of all kinds; every third ends in recovery, a `confirm` and
a `resend` of each switch and a `flush`. These are compared in each case: the journal of `replay`
with the answer of `--quiet`, the records of `flows`, the placement of `rebalance`, and the answers
of `audit` to that journal and to three damaged ones. Each difference is printed with its seed, its
command and its first line; it stops at ten. Finally it prints how many cases were alike, and how
many both refused because the first policy had no plan. It ends with 1 if there was a difference.
"""
import argparse
import random
import subprocess
import sys
import tempfile
import tomllib
from multiprocessing import Pool
from pathlib import Path

import rebalance
import slow_audit
import slow_replay

POLICIES = 3
FILES = [f"p{file}.csv" for file in range(1, POLICIES + 1)]
PLAYED = ["s.csv", *FILES, "--net", "n.toml"]
PREFIXES = ["any", "10.0.0.0/8", "10.1.0.0/16", "10.1.2.0/24", "10.1.2.3"]
ADDRESSES = ["10.1.2.3", "10.1.2.4", "10.1.9.9", "10.7.7.7", "8.8.8.8"]
# Of a hundred rows. Few are lost, forgotten or expired, so that most packets come to an end.
KINDS = {
    "packet": 25,
    "hop": 15,
    "deliver": 15,
    "flush": 5,
    "drain": 4,
    "update": 4,
    "linkdown": 6,
    "linkup": 5,
    "crash": 5,
    "restart": 6,
    "confirm": 4,
    "resend": 2,
    "lose": 1,
    "forget": 1,
    "expire": 2,
}
PRIORITIES = range(1, 11)
ROUNDS = [1, 0, 0, 2, 0, 0]  # of recovery, after the schedules of these seeds in turn
NO_PLAN = 3
MOST_DIFFERENCES = 10


def some(rng, among, share):
    return [one for one in among if rng.random() < share]


def network_text(rng, names, links):
    """Small caches and leaves, so that rules are dropped and policies are cut."""
    authorities = some(rng, names, 0.5) or ["b"]
    lines = [
        f"backups = {rng.randint(0, min(2, len(authorities) - 1))}",
        f"cache = {rng.choice([1, 2, 256])}",
        f"leaf_rules = {rng.choice([2, 3, 64])}",
    ]
    for port, name in enumerate(names):
        room = 1000 if name in authorities else 0
        lines += ["[[switch]]", f'name = "{name}"', f"ports = [{port}]", f"authority = {room}"]
    for one, other in links:
        lines += ["[[link]]", f'ends = ["{one}", "{other}"]']
    return lines


def policy_text(rng, ports):
    """Rows over few prefixes, so that they overlap; two of three send packets out."""
    actions = ["drop"] + [f"out:{port}" for port in range(ports)] * 2
    lines = ["priority,src,dst,sport,dport,proto,action"]
    for priority in rng.sample(PRIORITIES, rng.randint(0, 4)):
        src, dst = rng.choice(PREFIXES), rng.choice(PREFIXES)
        dport = rng.choice(["any", "80", "80-90", "443"])
        proto, action = rng.choice(["any", "tcp", "udp"]), rng.choice(actions)
        lines.append(f"{priority},{src},{dst},any,{dport},{proto},{action}")
    return lines


def change_text(rng, ports):
    """Edits of few priorities, so that many changes can be applied and others can't."""
    lines = ["op,priority,src,dst,sport,dport,proto,action"]
    removed = rng.sample(PRIORITIES, rng.choice([0, 0, 1, 1, 2]))
    lines += [f"remove,{priority}" for priority in removed]
    return lines + [f"add,{row}" for row in policy_text(rng, ports)[1:3]]


def packet_of(rng, switch):
    src, dst = rng.choice(ADDRESSES), rng.choice(ADDRESSES)
    sport, dport = rng.randint(1, 5), rng.choice([80, 85, 443, 9])
    return [switch, src, dst, sport, dport, rng.choice(["tcp", "udp"])]


def arguments(rng, kind, switch, links, packets):
    """Messages and places of caches that aren't there are named too: then nothing happens."""
    if kind == "packet":
        return packet_of(rng, switch)
    if kind in ("hop", "lose"):
        return [rng.randint(1, max(1, packets))]
    if kind in ("deliver", "forget"):
        return [rng.randint(1, 60)]
    if kind == "update":
        return [rng.randint(1, POLICIES)]
    if kind in ("linkdown", "linkup"):
        ends = rng.choice(links)
        return ends if kind == "linkdown" else reversed(ends)
    if kind == "expire":
        return [switch, rng.randint(0, 2)]
    return [] if kind in ("flush", "drain") else [switch]


def schedule_text(rng, names, links, kinds):
    lines, packets = ["event,arguments"], 0
    for _ in range(rng.randint(10, 60)):
        kind = rng.choices(list(kinds), list(kinds.values()))[0]
        packets += kind == "packet"
        fields = arguments(rng, kind, rng.choice(names), links, packets)
        lines.append(",".join(map(str, [kind, *fields])))
    return lines


def recovery(names):
    """The rows after which a network has recovered, whatever happened before."""
    return [f"{kind},{name}" for kind in ("confirm", "resend") for name in names] + ["flush"]


def write_case(seed, folder, kinds, change_share=0.0, rounds=0):
    """The files of a case: this share of the further policies are changes, and at the end of the
    schedule the network recovers so many times."""
    rng = random.Random(seed)
    names = "abcde"[: rng.randint(2, 5)]
    pairs = [(one, other) for one in names for other in names if one < other]
    links = some(rng, pairs, 0.6) or [("a", "b")]
    texts = {"n.toml": network_text(rng, names, links)}
    for file in range(1, POLICIES + 1):
        is_change = file > 1 and rng.random() < change_share
        texts[f"p{file}.csv"] = (change_text if is_change else policy_text)(rng, len(names))
    texts["s.csv"] = schedule_text(rng, names, links, kinds)
    texts["s.csv"] += recovery(names) * rounds
    for name, lines in texts.items():
        Path(folder, name).write_text("".join(line + "\n" for line in lines))


def damaged(rng, text):
    """The text with one line changed, moved, repeated or taken out, or cut somewhere."""
    lines = text.splitlines(keepends=True)
    at, other = rng.randrange(len(lines)), rng.randrange(len(lines))
    way = rng.randrange(6)
    if way == 0:
        words = lines[at].split(" ")
        words[rng.randrange(len(words))] = rng.choice(rng.choice(lines).split())
        lines[at] = " ".join(words).rstrip("\n") + "\n"
    elif way == 1:
        lines.insert(other, lines.pop(at))
    elif way == 2:
        lines.insert(other, lines[at])
    elif way == 3:
        del lines[at]
    elif way == 4:
        digits = [k for k, letter in enumerate(lines[at]) if letter.isdigit()]
        place = rng.choice(digits or [0])
        lines[at] = lines[at][:place] + str(rng.randrange(10)) + lines[at][place + 1 :]
    else:
        lines[at] = lines[at][: rng.randrange(len(lines[at]))]
        del lines[at + rng.randrange(2) * len(lines) + 1 :]
    return "".join(lines)


def asked(binary, folder, *arguments):
    """The status, what was printed, and what was told of errors."""
    done = subprocess.run([binary, *arguments], cwd=folder, capture_output=True, text=True)
    return done.returncode, done.stdout, done.stderr


def told(lines):
    return 0, "".join(line + "\n" for line in lines), ""


def answers(folder):
    """What the model says of a case: by command its arguments, and how the program has to end."""
    net = tomllib.loads(Path(folder, "n.toml").read_text())
    world = slow_replay.played(net, Path(folder, "s.csv"), [Path(folder, name) for name in FILES])
    journal = [*world.journal.lines, *world.journal.meter_lines()]
    yield ["replay", *PLAYED, "--quiet"], told([*journal, f"quiet {'yes' if world.is_quiet() else 'no'}"])
    yield ["flows", *PLAYED], told(world.journal.flow_lines())
    yield ["rebalance", *PLAYED], (0, rebalance.text_of(net, world), "")


def audits(rng, folder, text):
    """Likewise of the text of a journal, and of damaged ones."""
    for name, trace in enumerate([text, *(damaged(rng, text) for _ in range(3))]):
        Path(folder, f"t{name}").write_text(trace)
        line = slow_audit.answer(Path(folder, f"t{name}"), *(Path(folder, file) for file in FILES))
        expected = (1, "", line + "\n") if line else (0, "yes\n", "")
        yield ["audit", f"t{name}", *FILES], expected


def compared(binary, folder, seed, arguments, expected):
    """Nothing where the program says it too, and else the first line that differs."""
    found = asked(binary, folder, *arguments)
    if found == expected:
        return []
    want, got = (one[1].splitlines() for one in (expected, found))
    at = next((k for k, both in enumerate(zip(want, got)) if both[0] != both[1]), min(len(want), len(got)))
    return [
        f"seed {seed}, {arguments[0]}, line {at + 1}",
        f"  model: status {expected[0]}, {want[at : at + 1]} {expected[2][-150:]}",
        f"  program: status {found[0]}, {got[at : at + 1]} {found[2][-150:]}",
    ]


def play(case):
    """What came of a case: "alike", "refused" or "different", with what differs."""
    binary, seed = case
    with tempfile.TemporaryDirectory() as folder:
        write_case(seed, folder, KINDS, 0.5, ROUNDS[seed % len(ROUNDS)])
        try:
            answered = [*answers(folder)]
        except SystemExit as end:
            status = asked(binary, folder, "replay", *PLAYED)[0]
            alike = status == end.code == NO_PLAN
            return ("refused", []) if alike else ("different", [f"seed {seed}: status {status}"])
        text = answered[0][1][1]
        answered += audits(random.Random(seed), folder, text)
        lines = [line for pair in answered for line in compared(binary, folder, seed, *pair)]
    return ("different" if lines else "alike"), lines


def main():
    parser = argparse.ArgumentParser(usage=__doc__)
    parser.add_argument("binary")
    parser.add_argument("count", type=int)
    parser.add_argument("start", type=int, nargs="?", default=0)
    parser.add_argument("--jobs", type=int, default=1)
    args = parser.parse_args()
    binary = str(Path(args.binary).resolve())
    cases = [(binary, seed) for seed in range(args.start, args.start + args.count)]
    ends = []
    with Pool(args.jobs) as pool:
        for end, lines in pool.imap(play, cases, chunksize=4):
            ends.append(end)
            print("".join(line + "\n" for line in lines), end="", flush=True)
            if ends.count("different") == MOST_DIFFERENCES:
                break
    print(", ".join(f"{ends.count(end)} {end}" for end in ("alike", "refused", "different")))
    sys.exit("different" in ends)


if __name__ == "__main__":
    main()
