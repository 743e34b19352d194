#!/usr/bin/env python3
"""Checks what `desk/policy` makes of chains of iptables: `checks/desk_chains.py [SEED]`.

Random chains that jump to others and may end with RETURN, and those of the samples, are compared with their policies: for
1,000 headers each, the rule that decides as iptables goes through the chains, evaluated here, is
that of the row which decides, and its action is the row's.

It ends with 1 where anything differs. Of the script it uses nothing but its output.
"""
import random
import re
import subprocess
import sys
import tempfile
from functools import partial
from pathlib import Path

from desk_kit import HOME, PROTOCOLS, SAMPLES, dotted, number, policy_faults

CHAINS = 12
TWICE = """*filter
:FORWARD DROP [0:0]
:SUB - [0:0]
-A FORWARD -s 10.0.0.0/8 -j SUB
-A FORWARD -s 11.0.0.0/8 -j SUB
-A SUB -m state --state NEW -j DROP
-A SUB -p tcp --dport 80 -j ACCEPT
-A SUB -j LOG
COMMIT
"""
SAID_ONCE = "1 of 2 lines, 2 rows", "isn't supported: line 6\n", "it decides nothing: line 8\n"


# ---- what the chains say


def chains_of(lines):
    """The rules of each chain as lines and words, and the line of each policy ACCEPT."""
    rules, accepting = {}, {}
    start = lines.index("*filter")
    for at, line in enumerate(lines[start:], start + 1):
        words = re.sub('"[^"]*"', "text", line).split()
        if line.startswith(":"):
            rules[words[0][1:]] = []
            if words[1] == "ACCEPT":
                accepting[words[0][1:]] = at
        elif words[:1] == ["-A"]:
            rules[words[1]].append((at, words[2:]))
    return rules, accepting


def is_inside(text, address):
    start, _, mask = text.partition("/")
    mask = number(mask) if "." in mask else (1 << 32) - (1 << 32 - int(mask or 32))
    return (number(start) ^ address) & mask == 0


def is_of(text, port):
    """Whether a port is one of a text like 80,443,8000:8010."""
    ends = [part.partition(":") for part in text.split(",")]
    return any(int(low or 0) <= port <= int((high or 65535) if colon else low)
               for low, colon, high in ends)


def rule_fits(words, header):
    """Whether a header matches the options of a rule; what it can't ask of one isn't asked."""
    source, target, sport, dport, protocol = header
    tests = {
        "-s": lambda text: is_inside(text, source),
        "-d": lambda text: is_inside(text, target),
        "-p": lambda text: protocol == (PROTOCOLS.get(text) or int(text)),
        "--sport": lambda text: is_of(text, sport),
        "--dport": lambda text: is_of(text, dport),
        "--sports": lambda text: is_of(text, sport),
        "--dports": lambda text: is_of(text, dport),
    }
    for at, word in enumerate(words):
        if word in tests and tests[word](words[at + 1]) == (words[at - 1] == "!"):
            return False
    return True


def decided(rules, chain, said, header):
    """The line and the action by which a chain decides a header, or nothing."""
    for at, words in rules[chain]:
        target = words[words.index("-j") + 1]
        if target == "RETURN" and rule_fits(words, header):
            return None
        if target in rules and rule_fits(words, header):
            if found := decided(rules, target, said, header):
                return found
        elif at in said and rule_fits(words, header):
            return at, "out:7" if target == "ACCEPT" else "drop"
    return None


def decided_from(chains, chain, said, header):
    """The same, where a chain's policy decides what no rule does."""
    rules, accepting = chains
    found = decided(rules, chain, said, header)
    return found or ((accepting[chain], "out:7") if chain in accepting else None)


# ---- random chains


def drawn_match(rng):
    """The options of a rule, and whether a policy can say them."""
    options, sayable = [], True
    for option in ("-s", "-d"):
        if rng.random() < 0.6:
            address, length = dotted(10 << 24 | rng.getrandbits(10)), rng.choice([8, 22, 27, 30, 32])
            sign = "! " if rng.random() < 0.15 else ""
            options.append(f"{sign}{option} {address}/{length}")
    protocol = rng.choice(["tcp", "tcp", "udp", "sctp", "icmp", "89", ""])
    options += [f"-p {protocol}"] if protocol else []
    if protocol in ("tcp", "udp", "sctp"):
        low, high = sorted((rng.getrandbits(16), rng.choice([80, 443, 65535])))
        texts = [f"-m {protocol} --dport {low}", f"-m {protocol} --sport {low}:{high}", ""]
        texts += [f"-m {protocol} ! --dport {low}:{high}", f"-m multiport --dports 22,{low}:{high}"]
        options.append(rng.choice(texts))
    if rng.random() < 0.1:
        options.append(rng.choice(["-i eth0", "-m state --state NEW", "-m icmp --icmp-type 8"]))
        sayable = False
    return " ".join(filter(None, options)), sayable


def drawn_chains(rng):
    """The text of a dump, and the lines that can be said."""
    lines = ["*filter", f":FORWARD {rng.choice(['ACCEPT', 'DROP'])} [1:60]", ":ONE - [0:0]"]
    lines.append(":TWO - [0:0]")
    targets = {"FORWARD": ["ONE", "TWO"], "ONE": ["TWO"], "TWO": []}
    said = {2} if "ACCEPT" in lines[1] else set()
    for chain, jumps in targets.items():
        for _ in range(8):
            match, sayable = drawn_match(rng)
            target = rng.choice(["ACCEPT", "DROP", "REJECT", *jumps])
            if target in jumps and not sayable:
                target = "DROP"
            lines.append(f"-A {chain} {match} -j {target}".replace("  ", " "))
            said |= {len(lines)} if sayable and target not in jumps else set()
        for _ in range(rng.randrange(3)):
            lines.append(f"-A {chain} {drawn_match(rng)[0]} -j RETURN".replace("  ", " "))
    return "".join(f"{line}\n" for line in [*lines, "COMMIT"]), said


def sources(rng):
    """Names, texts, chains and the lines that can be said."""
    sample = (SAMPLES["policy"] / "chains.txt").read_text()
    yield "FORWARD", sample, "FORWARD", {18, 19, *range(21, 23), 24, 26, *range(27, 35)} - {30}
    yield "OPEN", sample, "OPEN", {35, 36}
    yield "OUTPUT", sample, "OUTPUT", {12}
    for seed in range(CHAINS):
        text, said = drawn_chains(rng)
        yield f"chains drawn {seed}", text, "FORWARD", said


def twice_faults():
    """Of a chain to which two lines jump, each line is counted and named once."""
    args = [HOME / "desk/policy", "--list", "FORWARD", "--permit", "out:7"]
    said = subprocess.run(args, input=TWICE, capture_output=True, text=True).stderr
    yield from (f"{text!r} isn't said: {said}" for text in SAID_ONCE if text not in said)


def all_faults(rng, folder):
    yield from twice_faults()
    for name, text, chain, said in sources(rng):
        chains = chains_of(text.splitlines())
        decide = partial(decided_from, chains, chain, said)
        args = ["--permit", "out:7", "--list", chain, "--split", "2000"]
        order = sorted(said)
        idle = {at for at in said if at not in {line for line, _ in chains[0][chain]}}
        yield from policy_faults(rng, name, text, folder, args, order, decide, idle)


def main():
    if len(sys.argv) > 2 or sys.argv[1:] in (["-h"], ["--help"]):
        sys.exit(__doc__)
    rng = random.Random(sys.argv[1] if sys.argv[1:] else "1")
    with tempfile.TemporaryDirectory() as name:
        faults = list(all_faults(rng, Path(name)))
    print("\n".join(faults) or "chains: all as iptables goes through them")
    sys.exit(bool(faults))


main()
