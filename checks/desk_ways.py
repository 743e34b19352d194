#!/usr/bin/env python3
"""Checks the smaller ways in and out of the desk: `checks/desk_ways.py [SEED]`.

- Random lists of edges: the network that `desk/topology` makes has their switches, links, ports and
  authorities. Wrong lists, routes and options are refused in one line, with status 2.
- Lines of tcpdump with names are left out with their numbers, and a text of such lines is refused.
- What is wrong in a random map is told with the number of its line.
- `desk/policy --ignore-flags` says where it has no effect; what is left out says what fails.
- The completion has the questions and options of each script, and the manual page its name.

It ends with 1 where anything differs.
"""
import random
import re
import subprocess
import sys
import tempfile
import tomllib
from pathlib import Path

from desk_kit import DESK, HOME, SAMPLES, run

EDGES, MAPS, TEXTS = 20, 20, 10
WRONG = {
    "65 switches": ("".join(f"a{i} a{i + 1}\n" for i in range(64)), []),
    "257 links": ("".join(f"a{i} b{j}\n" for i in range(17) for j in range(16)), []),
    "no switch": ("# a b\n\n", []),
    "a binary file": ("\0\1\2 \xff\n", []),
    "an empty file": ("", []),
    "a page": ((HOME / "README.md").read_text(), []),
    "a schedule": ("event,arguments\npacket,a,10.0.1.5,10.0.2.10,1,2,tcp\ndrain\n", []),
    "a network": ('[[switch]]\nname = "a"\nports = [1, 2]\n\n[[switch]]\nname = "b"\n', []),
    "an authority that isn't there": ("a b\n", ["--authority", "c"]),
    "three authorities of two": ("a b\n", ["--authority", "3"]),
    "no authority": ("a b\n", ["--authority", "0"]),
    "a port twice": ("a b\n", ["--ports", "a=1,b=1"]),
    "the port 64": ("a b\n", ["--ports", "a=64"]),
    "a port of no switch": ("a b\n", ["--ports", "=1"]),
    "four backups": ("a b\n", ["--backups", "4"]),
    "an unknown option": ("a b\n", ["--port", "x", "--nothing"]),
}
WRONG_ROUTES = {
    "another heading": "prefix,switch\n",
    "the port 64": "prefix,port\n10.0.0.0/8,64\n",
    "no prefix": "prefix,port\n10.0.0/8,1\n",
    "bits after the length": "prefix,port\n10.0.0.1/8,1\n",
    "a route twice": "prefix,port\n10.0.0.0/8,1\n10.0.0.0/8,2\n",
    "three fields": "prefix,port\n10.0.0.0/8,1,2\n",
}
WRONG_POLICIES = {
    "an empty file": ("", []),
    "a text of something else": ("nothing\nat all\n", []),
    "a list that isn't there": ("access-list 1 permit any\n", ["--list", "2"]),
    "a chain that isn't there": ("-A X -j DROP\n", ["--list", "Y"]),
    "two chains": ("-A X -j DROP\n-A Y -j DROP\n", []),
    "chains without a rule": ("*filter\nCOMMIT\n", []),
    "only another table": ("*nat\n-A X -j DROP\n", []),
    "an action": ("access-list 1 permit any\n", ["--permit", "out:64"]),
}


# ---- networks


def drawn_edges(rng):
    """The text of a list of edges, its switches in order, and its links."""
    count, letter = rng.randrange(2, 20), rng.choice(["", "sw-", "n"])
    pairs = [rng.sample(range(1, count + 1), 2) for _ in range(rng.randrange(1, 40))]
    lines = [rng.choice(["", "# nothing", "source,target,speed"])]
    sign = "," if "," in lines[0] else rng.choice([",", ";", " ", "  "])
    for one, other in pairs:
        tail = rng.choice(["", f"{sign}10"]) + rng.choice(["", "  # a comment"])
        lines.append(f"{letter}{one}{sign}{letter}{other}{tail}")
    front = letter or "s"
    links = {frozenset(f"{front}{end}" for end in pair) for pair in pairs}
    switches = list(dict.fromkeys(f"{front}{end}" for pair in pairs for end in pair))
    return "".join(f"{line}\n" for line in lines), switches, links


def network_faults(rng, folder):
    for seed in range(EDGES):
        text, switches, links = drawn_edges(rng)
        (folder / "edges").write_text(text)
        degree = {name: sum(name in link for link in links) for name in switches}
        many, ends = rng.randrange(1, len(switches) + 1), rng.choice(["all", "ends"])
        args = ["--authority", many, "--room", 70, "--ports", ends, "--cache", 9]
        status, written, said = run("topology", folder / "edges", *args)
        net = tomllib.loads(written.decode())
        rows = net.get("switch", [])
        rooms = [degree[row["name"]] for row in rows if row.get("authority") == 70]
        owners = [name for name in switches if ends == "all" or degree[name] == 1]
        found = [
            ("status", status, 0),
            ("cache", net.get("cache"), 9),
            ("switches", [row["name"] for row in rows], switches),
            ("links", sorted(map(sorted, (link["ends"] for link in net.get("link", [])))),
             sorted(map(sorted, links))),
            ("ports", {row["name"]: row["ports"] for row in rows if "ports" in row},
             {name: [at] for at, name in enumerate(owners, 1)}),
            ("authorities", sorted(rooms), sorted(degree.values())[-many:]),
            ("parts", " parts that no link joins" in said, not is_whole(switches, links)),
        ]
        for what, one, other in found:
            if one != other:
                yield f"edges {seed}: {what}: {one}, and not {other}"


def is_whole(switches, links):
    reached = {switches[0]}
    for _ in switches:
        reached |= {end for link in links if link & reached for end in link}
    return reached == set(switches)


def wrong_network_faults(folder):
    for name, (text, args) in WRONG.items():
        (folder / "edges").write_text(text)
        status, written, said = run("topology", folder / "edges", *args)
        if (status, written, said.count("\n")) != (2, b"", 1) or "Traceback" in said:
            yield f"topology of {name}: status {status}: {said}"


def wrong_policy_faults(folder):
    """Wrong routes and texts, which are refused in one line; wrong routes with their line."""
    calls = []
    for name, text in WRONG_ROUTES.items():
        calls.append((name, "access-list 1 permit any\n", text, ["--routes", folder / "routes"]))
    for name, (text, args) in WRONG_POLICIES.items():
        calls.append((name, text, "", ["--permit", "drop", *args]))
    for name, text, routes, args in calls:
        (folder / "list").write_text(text)
        (folder / "routes").write_text(routes)
        status, written, said = run("policy", folder / "list", *args)
        place = f"routes:{routes.count(chr(10))}: " if routes else "desk/policy: "
        if (status, written, said.count("\n")) != (2, b"", 1) or place not in said:
            yield f"policy of {name}: status {status}: {said}"


# ---- traffic


def named_faults(rng, folder):
    """Lines with names instead of numbers."""
    plain = (SAMPLES["traffic"] / "office.txt").read_text().splitlines()[1:5]
    for seed in range(TEXTS):
        lines = [rng.choice(plain) for _ in range(12)]
        chosen = sorted(rng.sample(range(12), rng.randrange(1, 12)))
        for at in chosen:
            ends = [(r" 10\.0\.\d+\.\d+", " host.example.org"), (r"\.\d+:", ".https:")]
            lines[at] = re.sub(*rng.choice(ends), lines[at], count=1)
        (folder / "text").write_text("\n".join([*lines, ""]))
        status, written, said = run("traffic", folder / "text", "--all")
        told = re.search(r"names instead of numbers.*: lines? (.*)", said)
        ranges = [part.split("-") for part in told[1].split(", ")] if told else []
        numbers = [at for ends in ranges for at in range(int(ends[0]), int(ends[-1]) + 1)]
        if status or numbers != [at + 1 for at in chosen]:
            yield f"names {seed}: {chosen} stands as {numbers}: {said}"
    (folder / "text").write_text(re.sub(r" 10\.0\.\d+\.\d+", " host.example.org", plain[0]) + "\n")
    status, written, said = run("traffic", folder / "text")
    if status != 2 or written or "-nn" not in said:
        yield f"a text of names: {status} {said}"


def map_faults(rng, folder):
    """Maps in which one line is wrong, as CSV and as TOML."""
    for seed in range(MAPS):
        wrongs = ["10.0.0.0/33", "10.0.1", "10.0.0.1/8", "x", "10.9.0.0/16"]
        prefixes = [f"10.{at}.0.0/16" for at in range(9)] + ["10.9.0.0/16"]
        place, wrong = rng.randrange(1, 9), rng.choice(wrongs)
        prefixes.insert(rng.randrange(1, 9) if wrong == "10.9.0.0/16" else place, wrong)
        place = 10 if wrong == "10.9.0.0/16" else place
        rows = ["prefix,switch", *(f"{prefix},a" for prefix in prefixes)]
        toml = [f'# "{wrong}"', "a = [", *(f'  "{prefix}",' for prefix in prefixes), "]"]
        for ending, lines, line in ((".csv", rows, place + 2), (".toml", toml, place + 3)):
            path = folder / f"map{ending}"
            path.write_text("".join(f"{text}\n" for text in lines))
            status, _, said = run("traffic", SAMPLES["traffic"] / "office.txt", "--map", path)
            if status != 2 or f"{path}:{line}: " not in said:
                yield f"map {seed}{ending}: {wrong} in line {line}: {said}"


# ---- what is said of policies


def said_faults(folder):
    """What is said of flags that have no effect, and of lines that are left out."""
    texts = {
        "--ignore-flags has no effect: it is for filters": "access-list 1 permit any\n",
        "--ignore-flags has no effect: no filter": "@1.1.1.1/32 0.0.0.0/0 0 : 1 0 : 1 0x06/0xFF\n",
        "1 of 1 line, 1 row of 1 word": "access-list 1 permit any\n",
        "the file is empty": " \n",
        "a permit (fails closed): 'fragments'": "access-list 101 permit ip any any fragments\n",
        "a deny (fails open): 'fragments'": "access-list 101 deny ip any any fragments\n",
        "a deny (fails open): its match 'set'": "-A X -m set --match-set Y src -j DROP\n",
        "a permit (fails closed): '-i'": "-A X -i eth0 -j ACCEPT\n",
    }
    for wanted, text in texts.items():
        (folder / "text").write_text(text)
        said = run("policy", folder / "text", "--permit", "out:1", "--ignore-flags")[2]
        if wanted not in said:
            yield f"policy of {text.strip()}: {said}"
    flags = run("policy", SAMPLES["policy"] / "classbench.txt", "--permit", "drop", "--ignore-flags")
    if "no effect" in flags[2]:
        yield "--ignore-flags of filters with flags says that it has no effect"


# ---- completion and manual


def completed(*words):
    """What the completion has for the last of these words."""
    script = 'source "$0"; COMP_WORDS=("$@"); COMP_CWORD=$(($# - 1)); _difane_desk; '
    script += 'printf "%s\\n" "${COMPREPLY[@]}"'
    command = ["bash", "-c", script, str(DESK / "completion.bash"), *words]
    return set(subprocess.run(command, cwd=HOME, capture_output=True, text=True).stdout.split())


def scripts():
    return sorted(path.name for path in DESK.iterdir() if path.is_file() and path.stat().st_mode & 1)


def completion_faults():
    """The completion of questions, commands, examples and options."""
    asked = subprocess.run([DESK / "ask", "campus", "?"], capture_output=True, text=True).stderr
    questions = set(asked.partition("the questions are ")[2].strip().split(", "))
    ways = {
        ("desk/ask", "campus", ""): questions,
        ("desk/run", "campus", ""): {"replay", "compile", "show"},
        ("desk/view", "f"): {"fat_tree", "first", "failover"},
        ("desk/topology", "--"): {"--authority", "--ports", "--room", "--strict"},
        ("desk/policy", "--r"): {"--routes"},
        ("desk/traffic", "checks/al"): {"checks/all.py"},
    }
    for words, wanted in ways.items():
        found = completed(*words)
        if not wanted or not wanted <= found:
            yield f"completion of {' '.join(words)}: {sorted(found)}"
    page = (HOME / "docs/difane.1").read_text()
    for name in scripts():
        if f".It Pa desk/{name}\n" not in page:
            yield f"docs/difane.1 doesn't name desk/{name}"


def main():
    if len(sys.argv) > 2 or sys.argv[1:] in (["-h"], ["--help"]):
        sys.exit(__doc__)
    rng = random.Random(sys.argv[1] if sys.argv[1:] else "1")
    with tempfile.TemporaryDirectory() as name:
        folder = Path(name)
        faults = [*network_faults(rng, folder), *wrong_network_faults(folder)]
        faults += wrong_policy_faults(folder)
        faults += [*named_faults(rng, folder), *map_faults(rng, folder), *said_faults(folder)]
    faults += completion_faults()
    print("\n".join(faults) or "networks, names, maps, what is said, completion: all as expected")
    sys.exit(bool(faults))


main()
