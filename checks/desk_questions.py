#!/usr/bin/env python3
"""Checks questions of desk/ask against the model and the text: `checks/desk_questions.py [SEEDS]`.

- On 200 cases in which messages are lost and switches crash: whether the network is quiet is what
  the model says, and after the rows that are told it is, but for messages that are told to stay.
- On SEEDS cases of `model/fuzz.py` (20 where no number is given): the packets that filters leave are
  those that patterns find in the text, and what the matrix says of a packet is what the model's
  journal of that one packet says. Each row that decides some header of the matrix has one there.
- Two journals of the same traffic differ in the outcomes that patterns find.
- The plan's sums are the model's, and code 15 says how many rules there were to place.
"""
import io
import random
import re
import shutil
import subprocess
import sys
import tempfile
from collections import Counter
from contextlib import redirect_stderr
from pathlib import Path

import desk
import journal_text
from desk_headers import first_row, has, numbers_of
from desk_stale import EXAMPLES, HOME, write_model_journal

import plan_model
import row_states
import slow_replay
from parts import compared, listed, plans, plays, reach, rest
from parts.folder import case_of, inputs_of

SEEDS, NIGHTS = 20, 200
ALONE = 6  # packets of a matrix that are played alone, too
NIGHT = {"update": 10, "deliver": 40, "forget": 12, "crash": 6, "restart": 6, "confirm": 4,
         "linkdown": 4, "linkup": 4, "resend": 4, "flush": 10, "packet": 3}


# ---- random cases

def played(seed, folder, kinds):
    """Leaves a random case and its journal; the world after it, or None where it has no plan."""
    desk.write_case(seed, folder, kinds)
    world = desk.write_journal(folder, 1)
    for _ in row_states.told(world, row_states.rows_of(folder / "schedule.csv")) if world else ():
        pass
    return world


def night_faults():
    """Nights in which messages are lost, and what is told of rest after them."""
    quiet = Counter()
    for seed in range(NIGHTS):
        with tempfile.TemporaryDirectory() as name:
            world = played(seed, Path(name), NIGHT)
            if world:
                quiet[world.is_quiet()] += 1
                yield from (f"night {seed}: {why}" for why in rest_faults(Path(name), world))
    print(f"  nights that end quiet: {quiet[True]}, others: {quiet[False]}")


def seed_faults(seed):
    """The faults of one random case; None where its first policy has no plan."""
    with tempfile.TemporaryDirectory() as name:
        folder, rng = Path(name), random.Random(seed)
        if played(seed, folder, desk.KINDS) is None:
            return None
        faults = [*filter_faults(folder, rng), *matrix_faults(folder, rng)]
        return [f"seed {seed}: {why}" for why in faults]


def rest_faults(folder, world):
    """Whether it is quiet is what the model says, and the rows that are told make it quiet."""
    found = rest.answer(case_of(str(folder)))
    if found["quiet"] != world.is_quiet():
        yield f"quiet is told to be {found['quiet']}"
    for row in found["rows"]:
        row_states.play_row(world, 0, *row.split(","))
    left = {number for number in lacking_in(world) if number not in found["may stay"]}
    if left or (not found["may stay"] and not world.is_quiet()):
        yield f"after the rows {found['rows']} the messages {left} are missing"


def lacking_in(world):
    """The messages that keep the model's network from being quiet."""
    for number in range(1, len(world.journal.messages) + 1):
        heard = world.journal.delivered
        if world.matters(number) and number not in heard:
            if not any(world.replaces(later, number) for later in heard):
                yield number


DECIDED = re.compile(r"^  decided (\d+) v(\d+) rule (\S+) \S+ (authority|cache) ", re.M)


def packets_in(text):
    """For each packet its switch, its row, and what of its decision filters ask for, by patterns."""
    came = dict(re.findall(r"^  (?:entered|closed) (\d+) (\S+)$", text, re.M))
    outcomes, row, decided = journal_text.outcomes(text), 0, {}
    for line in text.splitlines():
        row = int(line.split()[1].rstrip(":")) if line.startswith("row ") else row
        if said := DECIDED.match(line):
            decided[said[1]] = dict(version=said[2], rule=said[3], by=said[4], at=row)
        elif said := re.match(r"  (?:entered|closed) (\d+) ", line):
            decided[said[1]] = dict(version="None", rule="None", by="None", at=row)
    return {
        packet: {"switch": switch, "end": outcomes[packet][1] or "travelling", **decided[packet]}
        for packet, switch in came.items()
    }


def filter_faults(folder, rng):
    """Filters by random values, against what patterns find."""
    text, case = (folder / "journal.txt").read_text(), case_of(str(folder))
    packets = packets_in(text)
    for _ in range(8 if packets else 0):
        some = rng.choice([*packets.values()])
        names = rng.sample([name for name in some if some[name] != "None" and name != "at"],
                           rng.randint(0, 2))
        low, high = sorted(rng.randint(1, 60) for _ in range(2))
        words = [word for name in names for word in (name, some[name])]
        words += ["from", str(low), "to", str(high)]
        found = [str(one["packet"]) for one in listed.answer(case, *words)["found"]]
        wanted = [
            packet for packet, one in packets.items()
            if low <= one["at"] <= high and all(one[name] == some[name] for name in names)
        ]
        if found != wanted:
            yield f"packets {words} are {found}, and not {wanted}"


FIELDS = [["10.1.2.3", "10.7.7.7", "any", "10.1.0.0/16"], ["10.1.2.4", "8.8.8.8", "any"],
          ["3", "any"], ["80", "9", "any"], ["tcp", "udp", "any"]]


def matrix_faults(folder, rng):
    """Each packet of the matrix, against a journal of that packet only."""
    case, words = inputs_of(str(folder)), [rng.choice(texts) for texts in FIELDS]
    policies = desk.policies_in(folder)
    for behind in ([], ["after"]):
        found, cells = reach.answer(case, plays.proved(), *words, *behind), {}
        for one in found["packets"]:
            end = f"port {one['port']}" if one["end"] == "out" else one["end"]
            cells.setdefault(one["switch"], Counter())[end] += 1
        if cells != found["from"]:
            yield f"the matrix of {words} {behind} is {found['from']}, and not {cells}"
        for one in rng.sample(found["packets"], min(ALONE, len(found["packets"]))):
            header = [one[name] for name in ("src", "dst", "sport", "dport", "proto")]
            end = end_of(folder, policies if behind else policies[:1], one["switch"], header, behind)
            if end != (one["end"], one["port"]):
                yield f"{header} from {one['switch']} {behind} is {one['end']}, and not {end}"
        yield from rows_faults(policies[0], words, found) if not behind else ()


def end_of(folder, policies, switch, header, behind):
    """The end of one packet, and the port by which it leaves, in a journal of its own."""
    world = row_states.world_of(folder / "net.toml", policies)
    if behind:
        for _ in row_states.told(world, row_states.rows_of(folder / "schedule.csv")):
            pass
    before = len(world.journal.lines)
    world.step(0, "packet", switch, *header)
    number = world.packet_rows
    while world.travelling(number):
        world.step(0, "hop", number)
    text = "\n".join(world.journal.lines[before:])
    end = re.search(rf"^  (out|dropped|stuck|closed) {number}(?: port (\d+))?", text, re.M)
    return end[1], int(end[2]) if end[2] else None


def rows_faults(policy, words, found):
    """Each row that decides some header of these words has one there: by random headers of them."""
    rules = sorted(slow_replay.read_file(policy).rows, key=lambda row: -int(row[0]))
    decided = {first_row(rules, numbers_of(header)) for header in found["headers"]}
    rng = random.Random(len(rules))
    for _ in range(200):
        header = tuple(rng.choice(values) for values in SOME)
        if has(["0", *words], header) and first_row(rules, header) not in decided:
            yield f"no header for row {first_row(rules, header)} with {words}"


ADDRESSES = [10 << 24 | 1 << 16 | 2 << 8 | last for last in (3, 4)]
ADDRESSES += [10 << 24 | 1 << 16 | 9, 10 << 24 | 7 << 16 | 7 << 8 | 7, 8 << 24 | 8 << 16 | 8 << 8 | 8]
SOME = [ADDRESSES, ADDRESSES, [3, 9], [80, 85, 443, 9], [6, 17, 1]]


# ---- two journals

def fates(text):
    """For each packet what became of it, by patterns."""
    found = {}
    for packet, (rule, end) in journal_text.outcomes(text).items():
        action = rule.split()[1] if rule else "undecided"
        kept = end in ("out", "dropped")
        found[packet] = action if kept else f"{action}, {end or 'travelling'}"
    return found


def compare_faults():
    """The same traffic by policies whose rows are renumbered, and one of which acts otherwise."""
    with tempfile.TemporaryDirectory() as name:
        one, two = Path(name, "one"), Path(name, "two")
        shutil.copytree(EXAMPLES / "day", one)
        shutil.copytree(one, two)
        text = (one / "policy.csv").read_text()
        text = re.sub(r"^(\d)00,", r"\g<1>50,", text, flags=re.M)
        (two / "policy.csv").write_text(text.replace("53,udp,out:3", "53,udp,drop"))
        for folder in (one, two):
            write_model_journal(folder)
        found = compared.answer(case_of(str(one)), str(two))
        here, there = (fates((place / "journal.txt").read_text()) for place in (one, two))
        wanted = [packet for packet in here if here[packet] != there[packet]]
        if [str(row["packet"]) for row in found["differ"]] != wanted or len(wanted) != 1:
            yield f"{found['differ']} differ, and not {wanted}"
        if (found["same outcome"], found["by another row"]) != (3, 2):
            yield f"{found['by another row']} of {found['same outcome']} have another row"


# ---- plans

def plan_faults():
    """Sums by switch, against the model's plan; and what code 15 tells."""
    for path in sorted(EXAMPLES.glob("*/policy.csv")):
        folder, net = path.parent, path.parent / "net.toml"
        found = plans.answer(inputs_of(str(folder)), plays.proved())
        rows, net = plan_model.rows_of(path), net if net.is_file() else None
        names, words, parts, hosted = plan_model.plan_of(rows, net)
        rules = {name: [0, 0] for name in names}
        for (_, held), targets in zip(parts, hosted):
            for place, at in enumerate(targets):
                rules[names[at]][0] += len(held)
                rules[names[at]][1] += len(held) * (place == 0)
        if {one["switch"]: [one["rules"], one["first"]] for one in found["switches"]} != rules:
            yield f"{folder.name}: other sums than {rules}"
        told = [rule["word"] for part in found["parts"] for rule in part["rules"]]
        if told != ["%026x/%026x" % rule[0] for _, held in parts for rule in held]:
            yield f"{folder.name}: other rules"
        spelled = [rule["match"].partition(";")[0] for part in found["parts"] for rule in part["rules"]]
        if told != ["%026x/%026x" % desk.bits_of_match(match) for match in spelled]:
            yield f"{folder.name}: a match is no word of its rule"
    with tempfile.TemporaryDirectory() as name:
        folder = Path(name, "small")
        shutil.copytree(EXAMPLES / "amend", folder)
        text = (folder / "net.toml").read_text()
        (folder / "net.toml").write_text(text.replace("authority = 1000", "authority = 8"))
        yield from desk.refusal_faults("a plan without room", "ask", str(folder), "plan")
        command = [HOME / "desk/run", folder, "compile", "--model"]
        told = subprocess.run(command, capture_output=True, text=True).stderr
        if "to place: 9 rules, in 1 part, 2 times: 18 in all; there is room for 16" not in told:
            yield f"code 15 tells {told}"


# ---- all


def main():
    if len(sys.argv) > 2 or not all(arg.isdecimal() for arg in sys.argv[1:]):
        sys.exit(__doc__)
    faults = []
    checks = {
        "two journals": compare_faults(), "plans": plan_faults(), "nights": night_faults(),
    }
    for name, found in checks.items():
        found = list(found)
        print(f"{name}: {len(found)} faults", flush=True)
        faults += found
    with redirect_stderr(io.StringIO()):
        cases = [seed_faults(seed) for seed in range(int(sys.argv[1]) if sys.argv[1:] else SEEDS)]
    played = [found for found in cases if found is not None]
    faults += [fault for found in played for fault in found]
    print(f"random cases: {len(played)} played, {sum(map(len, played))} faults")
    print("\n".join(faults[:20]))
    sys.exit(bool(faults))


if __name__ == "__main__":
    main()
