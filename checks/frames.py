#!/usr/bin/env python3
"""Counts the calls between the top and a packet's result: `checks/frames.py`.

It reads the bodies of all functions under `crates/*/src` and prints two shortest chains of calls:
from `main` to the lookup of a header that enters, and from the function that has a decision for a
packet to the one that writes the packet's last item. A method call may mean each method of its name
that the crate can see, so a printed chain may use a call that isn't made; then the true one is
longer. It ends with 1 if a chain is longer than its limit.
"""
import re
import sys
from collections import defaultdict

from crates import below, sources, uses

# the functions that a chain goes through, and the most frames that it may have
CHAINS = {
    "from main to a lookup's result": (["difane::main", "world_log::Log::enter", "table_tree::Finder::lookup"], 14),
    "from an entered packet's decision to its last item": (
        ["world_log::Log::settle", "world_log::Log::leave", "world_log::Log::end"], 3),
}
COMMENT_OR_TEXT = re.compile(r"//[^\n]*|b?'(?:\\.|[^'\\\n])'|b?\"(?:\\(?s:.)|[^\"\\])*\"")
IMPL = re.compile(r"impl(?:<.*?>)? (?:(?P<trait>[\w:<>' ,]+) for )?(?P<type>\w+)")
FN = re.compile(r"\s*(?:pub(?:\(\w+\))? )?fn (\w+)")
CALL = re.compile(r"(?P<before>(?:\bself)?\.|(?:\w+(?:::<[^>]*>)?::)+)?(?P<name>\b[a-z]\w*)(?:::<[^()]*>)?\(")


def body(lines, start):
    """The body of the function whose head begins at this line, without its clauses; empty if it has none."""
    indent = re.match(r"\s*", lines[start])[0]
    for at in range(start, len(lines)):
        if at > start and FN.match(lines[at]) or re.match(rf"{indent}\S.*;$", lines[at]):
            break
        if lines[at] == indent + "{" or re.match(rf"{indent}\S.* {{$", lines[at]):
            end = next(k for k in range(at + 1, len(lines)) if lines[k].startswith(indent + "}"))
            return "\n".join(lines[at + 1:end])
        if at == start and lines[at].endswith("}"):
            return lines[at].partition("{")[2]
    return ""


def functions():
    """For each function its crate, type and calls, by `crate::Type::name` or `crate::name`."""
    found = {}
    for crate in uses():
        for path in sources(crate, "src/**/*.rt"):
            text = COMMENT_OR_TEXT.sub("", path.read_text())
            lines, home = text.split("\n"), None
            for at, line in enumerate(lines):
                if head := IMPL.match(line):
                    home = head["type"]
                elif head := re.match(r"(?:pub )?trait (\w+)", line):
                    home = head[1]
                elif line.startswith("}"):
                    home = None
                if name := FN.match(line):
                    key = "::".join(filter(None, [crate, home, name[1]]))
                    found[key] = crate, home, [(call["before"] or "", call["name"]) for call in CALL.finditer(body(lines, at))]
    return found


def graph(found):
    """The functions that each one may call."""
    free, methods = defaultdict(set), defaultdict(set)
    for key, (crate, home, _) in found.items():
        (methods if home else free)[key.rpartition("::")[2]].add(key)
    edges = {}
    for key, (crate, home, calls) in found.items():
        seen, edges[key] = below(crate) | {crate}, set()
        for before, name in calls:
            own = f"{crate}::{home}::{name}"
            last = before.removesuffix("::").rpartition("::")[2].partition("<")[0]
            if before == "self." and own in found:
                edges[key].add(own)
            elif before.endswith("."):
                edges[key] |= {one for one in methods[name] if found[one][0] in seen}
            elif last[:1].isupper():
                last = home if last == "Self" else last
                edges[key] |= {one for one in methods[name] if found[one][1] == last and found[one][0] in seen}
            elif last in seen:
                edges[key] |= {one for one in free[name] if found[one][0] == last}
            else:
                near = {one for one in free[name] if found[one][0] == crate}
                edges[key] |= near or {one for one in free[name] if found[one][0] in seen}
    return edges


def shortest(edges, start, end):
    """A shortest chain of calls from one function to another."""
    came, todo = {start: None}, [start]
    for one in todo:
        if one == end:
            chain = []
            while one:
                chain.insert(0, one)
                one = came[one]
            return chain
        for other in sorted(edges[one]):
            if other not in came:
                came[other] = one
                todo.append(other)
    sys.exit(f"no chain of calls from {start} to {end}")


def main():
    edges, long = graph(functions()), False
    for title, (stops, limit) in CHAINS.items():
        chain = stops[:1]
        for one, other in zip(stops, stops[1:]):
            chain += shortest(edges, one, other)[1:]
        print(f"{title}: {len(chain)}, at most {limit}\n  " + "\n  ".join(chain))
        long |= len(chain) > limit
    sys.exit(long)


main()
