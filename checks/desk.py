#!/usr/bin/env python3
"""Checks desk/ask, desk/draw and the modules of desk/parts: `checks/desk.py [SEEDS]`.

- Each output in desk/README.md is what the command before it prints;
  `checks/desk.py --write` puts the present outputs there.
- With --json the same values are printed.
- Each form of a line that docs/FORMATS.md has is read as one.
- The examples, and SEEDS random cases of `model/fuzz.py` (40 where no number is given), with
  changes of policies: after each row, switches, caches, links, messages and the newest version's
  policy are those of `model/slow_replay.py`. Each answer is what `checks/journal_text.py` finds in
  the text by patterns, and each row of a policy is where it is said to be.
- Matches, read bit by bit, are the words that they spell.
- In each picture of desk/draw the numbers are over the lines, and the key says what occurs.
- Each wrong input is told in one line, with status 2; damaged journals raise nothing else.
"""
import json
import random
import re
import shutil
import subprocess
import sys
import tempfile
from itertools import takewhile
from pathlib import Path
from xml.etree import ElementTree

import journal_text

HOME = Path(__file__).resolve().parent.parent
EXAMPLES, DESK = HOME / "examples", HOME / "desk"
PAGE, FORMATS = DESK / "README.md", HOME / "docs/FORMATS.md"
SEEDS, WORDS, DAMAGES = 40, 2000, 30

sys.dont_write_bytecode = True
sys.path[:0] = [str(DESK), str(HOME / "model")]

import fuzz
import row_states
import slow_replay
from parts import compared, dead, journal, listed, page, plans, plays, questions, reach, rest, words
from parts.folder import case_of
from parts.network import Network
from parts.packets import Play
from parts.row_mistakes import CHANGE_HEADING, POLICY_HEADING
from parts.script import Mistake


# ---- the page, the forms


def ask(*args):
    """The output of a command of the examples, and its status."""
    done = subprocess.run(args, cwd=HOME, capture_output=True, text=True)
    return done.stdout, done.stderr, done.returncode


def page_with_outputs(text):
    """The page with each output as it is now, after its command."""

    def block(match):
        out, errors, _ = ask(*match[1].split())
        said = (out + errors).replace(plans.SAYS["program"], plans.SAYS["model"])
        lines = [f"    {line}".rstrip() for line in said.splitlines()]
        return f"    $ {match[1]}\n" + "".join(f"{line}\n" for line in lines)

    return re.sub(r"^    \$ (.*)\n((?:    .*\n|\n(?=    (?!\$)))*)", block, text, flags=re.M)


def page_faults():
    text = PAGE.read_text()
    if page_with_outputs(text) != text:
        yield "desk/README.md has other outputs than the commands print; see --write"


def answer_to(question):
    """The function that finds an answer."""
    module = MODULES.get(question)
    return module.answer if module else getattr(questions, question)


def json_faults():
    """With --json each question prints what its function gives."""
    for question, *further in ASKED:
        out, errors, status = ask(str(DESK / "ask"), "day", question, *further, "--json")
        args = [int(one) if question == "packet" else one for one in further]
        used = [plays.proved()] if question in ("plan", "reach") else []
        wanted = answer_to(question)(case_of("day"), *used, *args)
        if status or json.loads(out) != json.loads(json.dumps(wanted)):
            yield f"--json of {question} is another value: {errors}"


MODULES = {"compare": compared, "packets": listed, "quiet": rest, "dead": dead, "plan": plans,
           "reach": reach}
ASKED = [["ends"], ["rules"], ["caches"], ["packet", "2"], ["updates"], ["losses"],
         ["compare", "day"], ["packets", "version", "1", "switch", "a"], ["quiet"], ["dead"],
         ["plan", "policy2.csv"], ["reach", "any", "10.0.2.10", "any", "any", "tcp"]]
SAMPLES = {
    "ROUTE": "a b",
    "WORD": "0" * 26 + "/" + "f" * 26,
    "RULE": "default",
    "ACTION": "out:3",
    "NAMES": "a b",
    **dict.fromkeys("STU", "s1"),
    **dict.fromkeys("ICNKFVBQRPM", "7"),
}


def form_faults():
    """The lines of the table of the journal, and of the meters and of --quiet."""
    cells = re.findall(r"^\| (`[^|]*`) \|", section("The journal"), re.M)
    forms = [form for cell in cells for form in re.findall("`([^`]+)`", cell)]
    forms += ["meter port P notes N", "quiet yes", "quiet no"]
    texts = [re.sub(r"[A-Z]+", lambda found: SAMPLES[found[0]], form) for form in forms]
    texts = [text for text in texts if not text.startswith("row ")]
    yield from (f"no form for {text!r}" for text in texts if journal.said_by(text) is None)
    kinds = set(re.findall(r"^\| `([a-z]+)", section("Schedules"), re.M))
    known = set(re.findall(r"event=([a-z]+)", journal.FORMS))
    missing = kinds - known - {"flush", "drain"}
    yield from (f"no form for rows {kind}" for kind in sorted(missing))


def section(heading):
    return FORMATS.read_text().split(f"\n## {heading}\n")[1].split("\n## ")[0]


# ---- words


def bits_of_match(match):
    """The value and the mask that a match says, read field by field."""
    value = mask = 0
    for part in match.split(","):
        name, _, text = part.partition("=")
        if name in words.PROTOCOLS.values():
            name, text = "nw_proto", {"icmp": "1", "tcp": "6", "udp": "17"}[name]
        if text:
            low, width = PLACES[name]
            one, _, other = text.partition("/")
            value |= number(one) << low
            mask |= mask_number(other, width) << low
    return value, mask


PLACES = {"nw_src": (72, 32), "nw_dst": (40, 32), "tp_src": (24, 16), "tp_dst": (8, 16),
          "nw_proto": (0, 8)}


def number(text):
    """A number, or an address as one."""
    if "." in text:
        return int.from_bytes(map(int, text.split(".")), "big")
    return int(text, 0)


def mask_number(text, width):
    """What follows the slash: nothing, a length of an address, or the bits themselves."""
    whole = (1 << width) - 1
    if text == "":
        return whole
    if width == 32 and "." not in text:
        return whole >> (32 - int(text)) << (32 - int(text))
    return number(text)


def random_word(rng):
    """A word whose fields are free, whole, prefixes or any bits."""
    value = mask = 0
    for low, width in PLACES.values():
        whole = (1 << width) - 1
        length = rng.randint(0, width)
        kinds = [0, whole, whole >> length << length, rng.getrandbits(width)]
        bits = rng.choice(kinds)
        mask |= bits << low
        value |= (rng.getrandbits(width) & bits) << low
    return f"{value:026x}/{mask:026x}"


def word_faults():
    rng = random.Random(2012)
    for word in (random_word(rng) for _ in range(WORDS)):
        match = words.match_of(word)
        if "%026x/%026x" % bits_of_match(match) != word:
            yield f"{word} is spelled {match}"


# ---- journals


def state_told(play):
    """The state that the modules of desk/parts have, in the plain values of the model's."""
    network = play.network
    standing = [one.at for one in play.packets.values() if one.end == "travelling"]
    return {
        "switches": {
            name: {
                "phase": switch.phase,
                "boot": switch.boot,
                "stamp": switch.stamp,
                "tables": sorted(switch.tables),
                "cache": [held.rule.number for held in switch.cache],
                "packets": standing.count(name),
            }
            for name, switch in network.switches.items()
        },
        "down": sorted(map(sorted, network.links_down)),
        "waiting": [one.number for one in network.messages.values()
                    if one.delivered is one.forgotten is None],
    }


def newest_told(case, play):
    """The rows of the newest version's policy, as the modules of desk/parts have them."""
    versions = play.network.versions
    return [rule.fields for rule in case.policy(versions[len(versions)])]


def state_faults(world, rows, folder):
    """The rows after which a state, or the newest policy, is another one than the model's."""
    case = case_of(str(folder))
    play = Play(Network(world.network.names, world.network.cache, case.touches))
    wrong = []

    def lines():
        for row, told in row_states.told(world, rows):
            yield from told
            if state_told(play) != row_states.state_of(world):
                wrong.append(f"after row {row} the state is another one than the model's")
            if newest_told(case, play) != world.newest:
                wrong.append(f"after row {row} the newest policy is another one than the model's")

    for item in journal.items_of(lines()):
        play.follow(item)
    return wrong


def answer_faults(folder):
    """The answers that differ from what the text says."""
    case, text = case_of(str(folder)), (folder / "journal.txt").read_text()
    found = questions.ends(case)
    yield "ends", {k: n for k, n in found["ends"].items() if n}, nonzero(journal_text.ends(text))
    yield "ports", found["ports"], journal_text.ports(text)
    uses = {
        (str(version["version"]), rule["rule"], by): rule[by]
        for version in questions.rules(case)["versions"]
        for rule in version["rules"]
        for by in ("authority", "cache")
    }
    yield "rules", nonzero(uses), journal_text.rules(text)
    yield from place_answers(folder, case)
    shares = questions.caches(case)["switches"]
    shares = {one["switch"]: (one["decided"], one["cached"]) for one in shares if one["decided"]}
    yield "caches", shares, journal_text.caches(text)
    told = questions.updates(case)["updates"]
    rows = {one["version"]: [one[mark] for mark in MARKS] for one in told}
    yield "updates", rows, journal_text.marks(text)
    for one in told:
        wanted = journal_text.update_messages(text, one["version"], one["retired"])
        yield f"messages of {one['version']}", sum(one["messages"].values()), wanted
    yield from change_answers(folder, text, case)
    outcomes = journal_text.outcomes(text)
    lost = [str(one["packet"]) for one in questions.losses(case)["packets"]]
    wanted = [packet for packet, (_, end) in outcomes.items() if end not in ("out", "dropped")]
    yield "losses", lost, wanted
    for packet in outcomes:
        lines = [line["line"] for line in questions.packet(case, int(packet))["lines"]]
        yield f"packet {packet}", lines, journal_text.packet_lines(text, packet)


def place_answers(folder, case):
    """The rows of each version's policy, against the lines of the files where they are."""
    for version in questions.rules(case)["versions"]:
        for rule in version["rules"][:-1]:
            said = f"{rule['file']} line {rule['line']}: {rule['rule']},{rule['says']}"
            yield f"a row of version {version['version']}", said, line_there(folder, said)


def line_there(folder, said):
    """A row with its place, as the file has it there; one that a change adds is without its op."""
    place = said.partition(": ")[0]
    name, number = place.split(" line ")
    line = (folder / name).read_text().splitlines()[int(number) - 1]
    row = line.removeprefix("add,").replace('"', "")
    return f"{place}: {row}"


def change_answers(folder, text, case):
    """What updates say of changes, against the texts of the files."""
    files = {f"{number}": path.read_text() for number, path in enumerate(policies_in(folder), 1)}
    told, made = questions.updates(case), {}
    for one in told["updates"]:
        for said in (*one["removed"], *one["added"]):
            yield f"a row of version {one['version']}", said, line_there(folder, said)
        if one["change of"] is not None:
            removed, added = ([said.partition(": ")[2] for said in one[what]] for what in EDITED)
            made[one["version"]] = {row.split(",")[0] for row in removed}, added
    yield "changes", made, journal_text.changes(text, files)
    wanted = journal_text.refusals(text)
    said = [(f"{one['row']}", f"{one['file']}") for one in told["refused"]]
    yield "refused updates", said, [(row, file) for row, file, _ in wanted]
    for one, (row, file, code) in zip(told["refused"], wanted):
        if code in OPS:
            named, edits = one["why"].partition(": ")[2].split(), files[file]
            stand = {*named} <= journal_text.priorities(edits, OPS[code])
            yield f"priorities of row {row}", stand and named != [], True


def nonzero(counts):
    return {key: count for key, count in counts.items() if count}


def compare_faults(folder, other):
    """The packets that differ between two journals, against those whose outcomes do."""
    texts = [(one / "journal.txt").read_text() for one in (folder, other)]
    here, there = map(journal_text.outcomes, texts)
    found = compared.answer(case_of(str(folder)), str(other))
    differ = [str(one["packet"]) for one in found["differ"]]
    wanted = [packet for packet in here if fate(here[packet]) != fate(there[packet])]
    yield "compare", differ, wanted
    others = sum(here[one][0] != there[one][0] for one in here if one not in wanted)
    yield "compare, other rows", found["by another row"], others


def fate(outcome):
    """The action and the end, by whichever row."""
    row, end = outcome
    return row.partition(" ")[2], end


def unequal(name, answers):
    return [f"{name}: {what} is {found}, not {wanted}"
            for what, found, wanted in answers if found != wanted]


def example_faults():
    """The folders of the examples that have a journal."""
    for path in sorted(EXAMPLES.glob("*/journal.txt")):
        folder = path.parent
        net = folder / "net.toml"
        world = row_states.world_of(net if net.is_file() else None, policies_in(folder))
        rows = row_states.rows_of(folder / "schedule.csv")
        yield from (f"{folder.name}: {why}" for why in state_faults(world, rows, folder))
        yield from unequal(folder.name, answer_faults(folder))


def policies_in(folder):
    """The policy files of a folder, in their order."""
    later = (folder / f"policy{number}.csv" for number in range(2, 65))
    return [folder / "policy.csv", *takewhile(Path.is_file, later)]


MARKS = ["submitted", "current", "retired"]
EDITED = ["removed", "added"]
OPS = {"24": "remove", "25": "add"}  # the rows of a change that a refusal names, by its code
CHANGES = 0.5  # of the later policies of random cases
KINDS = {**fuzz.KINDS, "update": 12}  # most changes are refused, so there are more updates
FILES = {"n.toml": "net.toml", "p1.csv": "policy.csv", "p2.csv": "policy2.csv",
         "p3.csv": "policy3.csv", "s.csv": "schedule.csv"}


def write_journal(folder, first):
    """Puts the policy with this number first, plays the random case, and leaves its journal; the
    world anew, or None where the policy has no plan."""
    policies = [folder / f"policy{number}.csv" for number in ("", 2, 3)]
    texts = [path.read_text() for path in policies]
    texts.insert(0, texts.pop(first - 1))
    for path, text in zip(policies, texts):
        path.write_text(text)
    rows = row_states.rows_of(folder / "schedule.csv")
    try:
        worlds = [row_states.world_of(folder / "net.toml", policies) for _ in range(2)]
    except slow_replay.Refused:
        return None
    lines = [line for _, told in row_states.told(worlds[0], rows) for line in told]
    lines += worlds[0].journal.meter_lines()
    (folder / "journal.txt").write_text("".join(f"{line}\n" for line in lines))
    return worlds[1]


def write_case(seed, folder, kinds=KINDS):
    fuzz.write_case(seed, folder, kinds, CHANGES)
    for old, new in FILES.items():
        Path(folder, old).rename(Path(folder, new))


def whole_policy(folder):
    """The number of a policy that can come first: of a later one, unless all are changes."""
    texts = {number: (folder / f"policy{number}.csv").read_text() for number in (2, 3)}
    return next((number for number, text in texts.items() if text.startswith("priority")), 1)


def seed_faults(seed):
    """The faults of one random case; None where its first policy has no plan."""
    with tempfile.TemporaryDirectory() as one, tempfile.TemporaryDirectory() as two:
        folder, other = Path(one), Path(two)
        for place in (folder, other):
            write_case(seed, place)
        world = write_journal(folder, 1)
        if world is None:
            return None
        rows = row_states.rows_of(folder / "schedule.csv")
        faults = [f"seed {seed}: {why}" for why in state_faults(world, rows, folder)]
        faults += unequal(f"seed {seed}", answer_faults(folder))
        if write_journal(other, whole_policy(other)) is not None:
            faults += unequal(f"seed {seed}", compare_faults(folder, other))
        return faults


# ---- pictures


def picture_faults():
    """The pictures that desk/draw makes of each packet of the examples."""
    for path in sorted(EXAMPLES.glob("*/journal.txt")):
        name, text = path.parent.name, path.read_text()
        for packet in journal_text.outcomes(text):
            out, errors, status = ask(str(DESK / "draw"), name, packet)
            if status:
                yield f"draw {name} {packet}: {errors}"
                continue
            numbers = journal_text.packet_lines(text, packet)
            lines = [text.splitlines()[number - 1].strip() for number in numbers]
            yield from (f"draw {name} {packet}: {why}" for why in faults_of_picture(out, lines))


def faults_of_picture(svg, lines):
    """Each line has its number twice, over all arrows; curves have heads; the key says what is."""
    root = ElementTree.fromstring(svg)
    if root.get("viewBox") != f"0 0 {root.get('width')} {root.get('height')}":
        yield "the picture can't be scaled"
    shapes = [(one.tag.rpartition("}")[2], one) for one in root]
    kinds = [kind for kind, _ in shapes]
    texts = [one.text or "" for kind, one in shapes if kind == "text"]
    wanted = sorted(str(number) for number in range(1, len(lines) + 1)) * 2
    if sorted(text for text in texts if text.isdecimal()) != sorted(wanted):
        yield "a number is missing, or there too often"
    if "circle" in kinds and {"path", "polyline", "rect"} & {*kinds[kinds.index("circle") :]}:
        yield "a number is below a line"
    if any(kind == "path" and "marker-end" not in one.attrib for kind, one in shapes):
        yield "a curve has no head"
    told = {line.split()[0] for line in lines}
    for text, kinds in KEY.items():
        if (text in texts) != bool(kinds & told):
            yield f"the key and {text!r}"
    found = {frozenset(line.split()[2:]) for line in lines if line.startswith("found ")}
    if texts.count("✕ down") < len(found):
        yield "a link that was found down looks alive"


KEY = {
    "tunnel to an authority": {"tunnelled"},
    "path to its port": {"exit", "out"},
    "cache rule": {"sent"},
    "found down": {"found"},
}


# ---- wrong inputs

WRONG_JOURNALS = {
    "a binary file": b"\x7fELF\x00\xff",
    "a policy": b"priority,src,dst,sport,dport,proto,action\n",
    "a blank line": b"row 1: drain\n\n",
    "a line cut short": b"row 1: packet a 10.0.1.5 10.0",
    "a tail": b"  hopped 1 b\n",
    "a hop of no packet": b"row 1: hop 1\n  hopped 1 b\n",
    "a packet of no row": b"row 1: hop 1\n  entered 1 b\n",
    "a message of no row": b"row 1: deliver 1\n  delivered 1\n",
    "three blanks": b"row 1: hop 1\n   nothing\n",
    "messages without the first": b"row 1: hop 1\n  sent 2 a install boot 1 version 2\n",
    "a word of an odd length": b"row 1: hop 1\n  sent 1 a cache version 1 word 0/0 rule 1 drop\n",
}
WRONG_NETS = {
    "no TOML": "switch",
    "no switch": "cache = 1\n",
    "no switches": "switch = []\n",
    "a number for switches": "switch = 1\n",
    "no name": "[[switch]]\n",
    "a number for a name": "[[switch]]\nname = 1\n",
    "a text for a port": "[[switch]]\nname = 'a'\nports = ['x']\n",
    "a text for the cache": "cache = 'x'\n[[switch]]\nname = 'a'\n",
    "a link to nowhere": "[[switch]]\nname = 'a'\n[[link]]\nends = ['a', 'b']\n",
    "a link with three ends": "[[switch]]\nname = 'a'\n[[link]]\nends = ['a', 'a', 'a']\n",
    "a link of links": "[[switch]]\nname = 'a'\n[[link]]\nends = [['a'], ['a']]\n",
}
WHOLE, CHANGE = f"{POLICY_HEADING}\n7,any,any,any,any,any,drop\n", f"{CHANGE_HEADING}\n"
WRONG_POLICIES = {
    "a wrong policy": (WHOLE, "priority\n"),
    "a change that is first": (CHANGE, CHANGE),
    "a change of other rows": (WHOLE, f"{CHANGE}remove,8\n"),
    "a row that is there": (WHOLE, f"{CHANGE}add,7,any,any,any,any,any,drop\n"),
    "a row that neither adds nor removes": (WHOLE, f"{CHANGE}swap,7\n"),
    "a row that removes too much": (WHOLE, f"{CHANGE}remove,7,any,any,any,any,any,drop\n"),
}
WRONG_ARGS = [
    ["ask", "nowhere", "ends"],
    ["ask", "campus"],
    ["ask", "campus", "what"],
    ["ask", "campus", "packet"],
    ["ask", "campus", "packet", "x"],
    ["ask", "campus", "packet", "99"],
    ["ask", "campus", "compare", "day"],
    ["ask", "nets", "ends"],
    ["ask", "campus/", "ends"],
    ["view"],
    ["view", "nowhere"],
    ["draw", "campus"],
    ["draw", "campus", "x"],
    ["draw", "nowhere", "1"],
]


def refusal_faults(what, *args):
    """Status 2 and one line are needed, and no output."""
    out, errors, status = ask(str(DESK / args[0]), *args[1:])
    if (out, status, errors.count("\n")) != ("", 2, 1) or "Traceback" in errors:
        yield f"{what}: status {status}, {errors.strip()[-200:]}"


def wrong_input_faults():
    for args in WRONG_ARGS:
        yield from refusal_faults(" ".join(args), *args)
    with tempfile.TemporaryDirectory() as name:
        folder = Path(name)
        for what, text in WRONG_JOURNALS.items():
            (folder / "journal.txt").write_bytes(text)
            for script in (["ask", name, "ends"], ["ask", name, "quiet"],
                           ["ask", name, "packet", "1"], ["view", name]):
                yield from refusal_faults(what, *script)
        (folder / "journal.txt").write_text("row 1: hop 1\n  nothing\n")
        for what, text in WRONG_NETS.items():
            (folder / "net.toml").write_text(text)
            for script in (["ask", name, "ends"], ["view", name]):
                yield from refusal_faults(what, *script)
        (folder / "net.toml").unlink()
        (folder / "journal.txt").write_text("row 1: update 2\n  submitted file 2 version 2\n")
        for what, texts in WRONG_POLICIES.items():
            for file, text in zip(("policy.csv", "policy2.csv"), texts):
                (folder / file).write_text(text)
            for script in (["ask", name, "rules"], ["ask", name, "updates"], ["view", name]):
                yield from refusal_faults(what, *script)


def damaged(rng, lines):
    """The lines of a journal with some left out, twice, elsewhere, or with other texts."""
    lines = list(lines)
    for _ in range(rng.randint(1, 4)):
        place, other = rng.randrange(len(lines)), rng.randrange(len(lines))
        kind = rng.choice(["leave out", "twice", "swap", "text"])
        if kind == "leave out":
            del lines[place]
        elif kind == "twice":
            lines.insert(other, lines[place])
        elif kind == "swap":
            lines[place], lines[other] = lines[other], lines[place]
        else:
            texts = lines[place].split(" ")
            texts[rng.randrange(len(texts))] = rng.choice(lines[other].split(" "))
            lines[place] = " ".join(texts)
        lines = lines or ["row 1: drain"]
    return lines


def damage_faults():
    """Damaged journals are answered, or told as a mistake, and nothing else is raised."""
    rng = random.Random(58)
    for path in sorted(EXAMPLES.glob("*/journal.txt")):
        with tempfile.TemporaryDirectory() as name:
            folder = Path(name, path.parent.name)
            shutil.copytree(path.parent, folder)
            (folder / "schedule.csv").unlink()  # a row that it hasn't would end each answer
            for _ in range(DAMAGES):
                lines = damaged(rng, path.read_text().splitlines())
                (folder / "journal.txt").write_text("".join(f"{line}\n" for line in lines))
                yield from damage_fault(folder)


def damage_fault(folder):
    """What a damaged journal raises but a mistake."""
    tasks = [getattr(questions, name) for name in "ends rules caches updates losses".split()]
    tasks += [lambda case: questions.packet(case, 1), page.page_of, rest.answer, listed.answer]
    for task in tasks:
        try:
            task(case_of(str(folder)))
        except Mistake:
            pass
        except Exception as error:
            text = (folder / "journal.txt").read_text()
            yield f"{folder.name}: {task} raises {error!r} by {text[:400]!r}"


# ---- all


def main():
    if sys.argv[1:] == ["--write"]:
        PAGE.write_text(page_with_outputs(PAGE.read_text()))
        return
    if len(sys.argv) > 2 or not all(arg.isdecimal() for arg in sys.argv[1:]):
        sys.exit(__doc__)
    checks = {
        "outputs of desk/README.md": page_faults(),
        "forms of docs/FORMATS.md": form_faults(),
        "--json": json_faults(),
        "words": word_faults(),
        "examples": example_faults(),
        "pictures": picture_faults(),
        "wrong inputs": wrong_input_faults(),
        "damaged journals": damage_faults(),
    }
    faults = []
    for name, found in checks.items():
        found = list(found)
        print(f"{name}: {len(found)} faults")
        faults += found
    cases = [seed_faults(seed) for seed in range(int(sys.argv[1]) if sys.argv[1:] else SEEDS)]
    played = [found for found in cases if found is not None]
    faults += [fault for found in played for fault in found]
    print(f"random cases: {len(played)} played, {sum(map(len, played))} faults")
    print("\n".join(faults[:20]))
    sys.exit(bool(faults))


if __name__ == "__main__":
    main()
