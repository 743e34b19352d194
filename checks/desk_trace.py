#!/usr/bin/env python3
"""Checks desk/trace and desk/whatif against the slow model: `checks/desk_trace.py [SEEDS]`.

Over the examples and SEEDS random cases of `model/fuzz.py` (10 where no number is given):

- `trace` sends packets into a fresh network and after the schedule. The lines that it has are
  those of the model's journal, the end is the same, and the words name what each line names.
- `whatif` lets each switch and each link fail, and in one case each pair. The rows of each failure
  are made here again and played by the model; the counts are those of its journals, found by
  patterns in the text, the worst is first, and `--rows` prints the same schedule.
- Wrong words and folders are told in one line, with status 2.

With a program (`checks/desk_trace.py SEEDS BIN`) it asks that too, and compares.
"""
import csv
import io
import json
import random
import re
import subprocess
import sys
import tempfile
from collections import Counter
from itertools import combinations, takewhile
from pathlib import Path

import journal_text

HOME = Path(__file__).resolve().parent.parent
EXAMPLES, DESK = HOME / "examples", HOME / "desk"
SEEDS, PACKETS, PAIRS = 10, 2, "failover"

sys.dont_write_bytecode = True
sys.path.insert(0, str(HOME / "model"))

import fuzz
import row_states
import slow_replay

FILES = {"n.toml": "net.toml", "p1.csv": "policy.csv", "p2.csv": "policy2.csv",
         "p3.csv": "policy3.csv", "s.csv": "schedule.csv"}
BAD, TRAVELLING = ["closed", "lost", "stuck", "travelling"], "travelling"


def ask(script, *args):
    done = subprocess.run([str(DESK / script), *args], capture_output=True, text=True)
    return done.stdout, done.stderr, done.returncode


def journal(folder, rows):
    """What the slow model writes for these rows over the files of a folder."""
    later = (folder / f"policy{number}.csv" for number in range(2, 65))
    policies = [folder / "policy.csv", *takewhile(Path.is_file, later)]
    net = folder / "net.toml"
    world = row_states.world_of(net if net.is_file() else None, policies)
    world.play(rows)
    return "".join(f"{line}\n" for line in world.journal.lines), world.network


# One packet.

FACTS = {
    "row": [3, 4, 5, 6, 7, 8], "entered": [1, 2], "closed": [2], "tunnelled": [2, 4, -1],
    "hopped": [2], "found": [2, 3], "decided": [2, 4, 5], "sent": [1, 2, -1], "exit": [-1],
    "rerouted": [-1], "out": [3], "dropped": [], "lost": [], "stuck": [2, 3],
}


def word_faults(text, words):
    """What a line of the journal names, and its words don't."""
    parts = text.split()
    for place in FACTS[parts[0]]:
        fact = parts[place].removeprefix("v") if parts[0] in ("tunnelled", "decided") else parts[place]
        fact = "the default" if fact == "default" else fact
        if fact not in words:
            yield f"{words!r} doesn't name {fact} of {text!r}"


def trace_faults(folder, packet, behind, who):
    """What `trace` says otherwise of a packet than the model's journal."""
    rows = row_states.rows_of(folder / "schedule.csv") if behind else []
    text, _ = journal(folder, [*rows, ["packet", *packet], ["drain"]])
    number = str(sum(row[0] == "packet" for row in rows) + 1)
    args = [*["--after"] * behind, *who, str(folder), *packet]
    out, errors, status = ask("trace", *args, "--json")
    name = f"trace {' '.join(args)}"
    if status:
        yield f"{name}: {errors}"
        return
    found, lines = json.loads(out), text.splitlines()
    wanted = [lines[at - 1] for at in journal_text.packet_lines(text, number)]
    if [one["text"] for one in found["lines"]] != wanted:
        yield f"{name}: other lines than the model's"
    if found["end"] != (journal_text.outcomes(text)[number][1] or TRAVELLING):
        yield f"{name}: the end is {found['end']}"
    said = ask("trace", *args)[0].splitlines()[-len(wanted):]
    for number, (line, words) in enumerate(zip(wanted, said), 1):
        if not words.startswith(f"{number:4}  "):
            yield f"{name}: step {number} is {words!r}"
        yield from (f"{name}: {why}" for why in word_faults(line, words))


def packets_for(rng, folder):
    """Packets to trace: of the schedule, at another switch, and with another address."""
    rows = [row[1:] for row in row_states.rows_of(folder / "schedule.csv") if row[0] == "packet"]
    names = journal(folder, [])[1].names
    for row in rng.sample(rows, min(PACKETS, len(rows))):
        yield [rng.choice(names), rng.choice([row[1], "8.8.8.8"]), *row[2:]]


# What if.


def prefix(failure):
    """The rows of what fails: the failures, the crashes confirmed, and all messages."""
    return [*failure, *(["confirm", row[1]] for row in failure if row[0] == "crash"), ["flush"]]


def schedule_behind(folder, rows, failure):
    """The rows after a failure: none that mends it, and messages counted on."""
    sent = journal(folder, prefix(failure))[0].count("\n  sent ")
    made = prefix(failure)
    for row in rows:
        mends = [["restart", "crash"], ["linkup", "linkdown"]]
        if any([one, {*row[1:]}] == [up, {*ends}] for up, down in mends
               for kind, *ends in failure if kind == down for one in row[:1]):
            continue
        if row[0] in ("deliver", "forget") and row[1] != "0":
            row = [row[0], str(int(row[1]) + sent)]
        made.append(row)
    return made


def fates(text):
    """How each packet ended, its port, and how many switches it stood at, from the text."""
    ends = {packet: end or TRAVELLING for packet, (_, end) in journal_text.outcomes(text).items()}
    ports = dict(re.findall(r"^  out (\d+) port (\d+)$", text, re.M))
    hops = Counter(re.findall(r"^  hopped (\d+) ", text, re.M))
    return {packet: (end, ports.get(packet), hops[packet]) for packet, end in ends.items()}


def counts(before, after):
    """How many packets are worse off, and how; fare otherwise; take more hops."""
    worse, otherwise, longer = Counter(), 0, 0
    for packet, (end, port, hops) in before.items():
        there = after[packet]
        if end not in BAD and there[0] in BAD:
            worse[there[0]] += 1
        elif (end, port) != there[:2] and not (end in BAD and there[0] in BAD):
            otherwise += 1
        elif end not in BAD and there[2] > hops:
            longer += 1
    return {**{end: worse[end] for end in BAD}, "otherwise": otherwise, "longer": longer}


def whatif_faults(folder, who, pairs=False):
    """What `whatif` says otherwise of a folder than the model's journals."""
    rows = row_states.rows_of(folder / "schedule.csv")
    text, network = journal(folder, rows)
    single = [["crash", name] for name in network.names]
    single += [["linkdown", *map(network.names.__getitem__, ends)] for ends in network.links]
    failures = list(combinations(single, 2)) if pairs else [(one,) for one in single]
    out, errors, status = ask("whatif", str(folder), "--json", *who, *["--pairs"] * pairs)
    if status:
        yield f"whatif {folder.name}: {errors}"
        return
    found = json.loads(out)["failures"]
    said = {frozenset(map(key_of, one["rows"].split(" "))): one for one in found}
    if len(found) != len(failures) or len(said) != len(failures):
        yield f"whatif {folder.name}: {len(found)} failures, and not {len(failures)}"
    orders = [(-sum(one[end] for end in BAD), -one["otherwise"], -one["longer"]) for one in found]
    if orders != sorted(orders):
        yield f"whatif {folder.name}: the worst isn't first"
    for number, failure in enumerate(failures):
        one = said[frozenset(key_of(",".join(row)) for row in failure)]
        own = [word.split(",") for word in one["rows"].split(" ")]
        made = schedule_behind(folder, rows, own)
        wanted = counts(fates(text), fates(journal(folder, made)[0]))
        if {name: one[name] for name in wanted} != wanted:
            yield f"whatif {folder.name}, {one['rows']}: not {wanted}"
        if number % 4 == 0:
            printed = ask("whatif", str(folder), "--rows", *one["rows"].split(" "))[0]
            if list(csv.reader(io.StringIO(printed)))[1:] != [list(map(str, row)) for row in made]:
                yield f"whatif {folder.name} --rows {one['rows']}: another schedule"


def key_of(word):
    """A failure, whatever the order of its link's ends."""
    return word.partition(",")[0], frozenset(word.split(",")[1:])


# Wrong words and folders.

PACKET = ["10.0.1.5", "10.0.2.10", "40000", "443", "tcp"]
WRONG = [
    ["trace", "campus"],
    ["trace", "nowhere", "a", *PACKET],
    ["trace", "", "a", *PACKET],
    ["trace", "campus", "z", *PACKET],
    ["trace", "campus", "", *PACKET],
    ["trace", "campus", "a", *PACKET, "more"],
    ["trace", "campus", "a", "10.0.1", *PACKET[1:]],
    ["trace", "campus", "a", PACKET[0], "10.0.2.0/24", *PACKET[2:]],
    ["trace", "campus", "a", *PACKET[:2], "any", *PACKET[3:]],
    ["trace", "campus", "a", *PACKET[:4], "sctp"],
    ["trace", "campus", "a\n", *PACKET],
    ["trace", "--program", "nowhere", "campus", "a", *PACKET],
    ["trace", "--program"],
    ["trace", "--ahead", "campus", "a", *PACKET],
    ["trace", "--after", "leaves", "a", *PACKET],
    ["whatif", "nowhere"],
    ["whatif", "--json"],
    ["whatif", "--pears", "campus"],
    ["whatif", "campus", "b"],
    ["whatif", "campus", "--rows"],
    ["whatif", "campus", "--rows", "crash,z"],
    ["whatif", "campus", "--rows", "crash"],
    ["whatif", "campus", "--rows", "linkdown,a,d"],
    ["whatif", "campus", "--rows", "crash,a", "crash,a"],
]
WRONG_FILES = {
    "policy.csv": ["", "priority\n", "priority,src,dst,sport,dport,proto,action\n1,any\n"],
    "net.toml": ["switch", "", "[[switch]]\nname = 'a'\nports = [64]\n"],
    "schedule.csv": ["", "event,arguments\nskip\n", "event,arguments\ncrash,nowhere\n"],
}


def refusal_faults(script, *args):
    out, errors, status = ask(script, *args)
    if (out, status, errors.count("\n")) != ("", 2, 1) or not errors.startswith(f"desk/{script}: "):
        yield f"{script} {' '.join(args)}: status {status}, {errors.strip()[-200:]}"


def all_refusal_faults():
    for args in WRONG:
        yield from refusal_faults(*args)
    for name, texts in WRONG_FILES.items():
        for text in texts:
            with tempfile.TemporaryDirectory() as folder:
                for file in ("policy.csv", "net.toml", "schedule.csv"):
                    Path(folder, file).write_bytes((EXAMPLES / "campus" / file).read_bytes())
                Path(folder, name).write_text(text)
                yield from refusal_faults("trace", "--after", folder, "a", *PACKET)
                yield from refusal_faults("whatif", folder)


# All.


def folder_faults(folder, rng, who):
    """The faults of both scripts over one folder."""
    for packet in packets_for(rng, folder):
        for behind in (False, True):
            yield from trace_faults(folder, packet, behind, who)
    yield from whatif_faults(folder, who)


def seed_faults(seed, who):
    """The faults of one random case; None where its first policy has no plan."""
    with tempfile.TemporaryDirectory() as name:
        folder = Path(name)
        fuzz.write_case(seed, folder, fuzz.KINDS, 0.5)
        for old, new in FILES.items():
            (folder / old).rename(folder / new)
        try:
            journal(folder, [])
        except slow_replay.Refused:
            return None
        return [f"seed {seed}: {why}" for why in folder_faults(folder, random.Random(seed), who)]


def main():
    seeds, *program = sys.argv[1:] or [str(SEEDS)]
    if not seeds.isdecimal() or len(program) > 1:
        sys.exit(__doc__)
    who = ["--program", program[0]] if program else ["--model"]
    faults = list(all_refusal_faults())
    print(f"wrong words and folders: {len(faults)} faults")
    for path in sorted(EXAMPLES.glob("*/schedule.csv")):
        if (path.parent / "policy.csv").is_file() and path.parent.name != "skewed":
            found = list(folder_faults(path.parent, random.Random(7), who))
            print(f"{path.parent.name}: {len(found)} faults", flush=True)
            faults += found
    faults += whatif_faults(EXAMPLES / PAIRS, who, True)
    cases = [seed_faults(seed, who) for seed in range(int(seeds))]
    played = [found for found in cases if found is not None]
    faults += [fault for found in played for fault in found]
    print(f"random cases: {len(played)} played, {len(faults)} faults in all")
    print("\n".join(faults[:20]))
    sys.exit(bool(faults))


if __name__ == "__main__":
    main()
