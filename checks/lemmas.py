#!/usr/bin/env python3
"""Finds lemmas that occur twice: `checks/lemmas.py [--std] [--list]`.

Two lemmas are repeats of one another if their statements are equal except for layout and the names of bound variables; a name that is
imported counts by where it is defined. It ends with 1 if a group of equal statements isn't in the table of docs/MAP.md under
"Lemmas that occur twice", or a row of that table is no such group. With `--list` it lists each group, those of the table too. With
`--std` it also lists the lemmas whose statement a lemma of the kit at $RATTLE_KIT or /opt/rattle has, compared only by names: `rt lemma`
says which of those std exports.
"""
import os
import re
import sys
from collections import defaultdict
from itertools import count
from pathlib import Path

HOME = Path(__file__).resolve().parent.parent
PAGE = HOME / "docs/MAP.md"
TITLE = "## Lemmas that occur twice"
KIT = Path(os.environ.get("RATTLE_KIT", "/opt/rattle")) / "rattle"
HEAD = re.compile(r"(pub )?([^\s:=(){}]+) : (.*)")
DEFINES = re.compile(r"(?:abbrev |unfoldable |pub |data |record )*([^\s:=(){}]+)")
USE = re.compile(r"(?:pub )?use (?:Rattle\.)?(\w+)\.([^\s{]+?)(?:\.\{([^}]*)\}| as (\S+))?$")
TOKEN = re.compile(r"[(){}\[\],;]|[^\s(){}\[\],;]+")
CLOSES = {"(": ")", "{": "}", "[": "]"}
# what makes the end of a signature a statement, and no type of values
RELATIONS = {"≡", "≢", "<", "≤", "↔", "⊥"}


class Module:
    """A file of specs/ or proofs/: what its names mean, and its signatures."""

    def __init__(self, path, crate, name):
        self.path, self.crate, self.name = path, crate, name
        self.items, self.prefixes, self.defines, self.signatures = {}, {}, set(), []
        lines = [re.sub(r"(^|\s)--(\s.*)?$", "", line) for line in path.read_text().splitlines()]
        heads = [k for k, line in enumerate(lines) if line[:1].strip()] + [len(lines)]
        for at, (start, end) in enumerate(zip(heads, heads[1:])):
            line = lines[start]
            if use := USE.match(line):
                self.bring(*use.groups())
                continue
            if name := DEFINES.match(line):
                self.defines.add(name[1])
            if head := HEAD.fullmatch(line):
                last = next((k for k in heads[at + 1:-1] if self.is_next(lines[k], head[2])), heads[-1])
                size = sum(bool(one.strip()) for one in lines[start:last])
                self.signatures.append((head[2], bool(head[1]), " ".join([head[3], *lines[start + 1:end]]), size))

    @staticmethod
    def is_next(line, name):
        """Whether a line begins another item than that of this name."""
        return not re.match(rf"{re.escape(name)}\s|unfolding\s|[)\]}}]", line)

    def bring(self, crate, module, items, alias):
        if items is None:
            self.prefixes[alias or module.rsplit(".", 1)[-1]] = crate, module
        for item in filter(None, re.split(r",\s*", items or "")):
            name, _, other = item.partition(" as ")
            self.items[other or name] = crate, module, name


def modules_of(folder, crate=None):
    """The files of a crate, each by the crate and the name of the module."""
    crate = crate or folder.name
    for path in sorted([*folder.glob("specs/**/*.antt"), *folder.glob("proofs/**/*.antt")]):
        name = ".".join(path.relative_to(folder).with_suffix("").parts)
        yield (crate, name), Module(path, crate, name)


class Reader:
    """Reads signatures of one file, by what the names of all files mean."""

    def __init__(self, modules, here):
        self.modules, self.here = modules, here

    def home_of(self, crate, module, name):
        """Where a name is defined, past the modules that pass it on. All of std is one home, as its modules pass names on by patterns."""
        while crate != "std" and (found := self.modules.get((crate, module))) and name in found.items:
            crate, module, name = found.items[name]
        return f"std.{name}" if crate == "std" else f"{crate}.{module}.{name}"

    def meaning(self, token, bound):
        """What a token stands for: a bound variable's number, or where it is defined; a field stays with what it is a field of."""
        first, dot, rest = token.partition(".")
        if first in bound:
            return bound[first] + dot + rest
        if rest and first in self.here.prefixes:
            return self.home_of(*self.here.prefixes[first], rest)
        for name in (token, f"◌{token}◌"):
            if name in self.here.items:
                return self.home_of(*self.here.items[name])
        return f"{self.here.crate}.{self.here.name}.{token}" if token in self.here.defines else token

    def canonical(self, tokens, bound, numbers):
        """The tokens by what they mean, with each binder of one variable and no arrow between two binders."""
        said, k, bound = [], 0, dict(bound)
        while k < len(tokens):
            token = tokens[k]
            if token == "λ" or token == "let":
                while not tokens[k + 1].startswith(("(", ".", ":", "=")):
                    k += 1
                    name = tokens[k].rstrip(".")
                    bound[name] = f"#{next(numbers)}"
                    if tokens[k].endswith("."):
                        break
                said.append(token)
            elif token in CLOSES:
                end = closing(tokens, k)
                inner = tokens[k + 1:end]
                colon = inner.index(":") if ":" in inner and is_binder(inner) else 0
                if colon and said and said[-1] == "→" and said[-2:-1] == ["binder"]:
                    said.pop()
                for name in inner[:colon] or [None]:
                    said += [token, *self.canonical(inner[colon:], bound, numbers), tokens[end]]
                    if colon:
                        bound[name] = f"#{next(numbers)}"
                        said.append("binder")
                k = end
            else:
                said.append(self.meaning(token, bound))
            k += 1
        return said


def closing(tokens, start):
    """Where what opens at a token closes."""
    depth = 0
    for k in range(start, len(tokens)):
        depth += (tokens[k] in CLOSES) - (tokens[k] in CLOSES.values())
        if depth == 0:
            return k
    return len(tokens) - 1


def is_binder(inner):
    """Whether names stand before the first colon, and nothing else."""
    return not any(token in CLOSES or token in ("λ", "=") for token in inner[:inner.index(":")])


def is_statement(tokens):
    """Whether what a signature ends in is true or false: a relation, or a word of a variable that is no type."""
    depth, last, kinds = 0, 0, set()
    for k, token in enumerate(tokens):
        depth += (token in CLOSES) - (token in CLOSES.values())
        if token == "→" and depth == 0:
            last = k + 1
        if token == "Type" and tokens[k - 1] == ":":
            kinds |= set(tokens[max(j for j in range(k) if tokens[j] in CLOSES) + 1:k - 1])
    end = tokens[last:]
    names = {name for k, token in enumerate(tokens) if token in "({" for name in binder_names(tokens, k)} - kinds
    return bool(RELATIONS & set(end)) or end[0][:1].isupper() and any(token.split(".")[0] in names for token in end)


def binder_names(tokens, start):
    inner = tokens[start + 1:closing(tokens, start)]
    return inner[:inner.index(":")] if ":" in inner and is_binder(inner) else []


def statements(modules):
    """The lemmas of all files, by what they state."""
    groups = defaultdict(list)
    for module in modules.values():
        reader = Reader(modules, module)
        for name, is_public, text, size in module.signatures:
            tokens = TOKEN.findall(text)
            if tokens and is_statement(tokens):
                groups[tuple(reader.canonical(tokens, {}, count()))].append((module, name, is_public, size))
    return groups


def allowed():
    """The groups of the table, each as its names."""
    rows = PAGE.read_text().partition(TITLE)[2].partition("\n## ")[0]
    return {tuple(re.findall(r"`([^`]+)`", row.split("|")[1])) for row in rows.splitlines() if row.startswith("| `")}


def own_modules():
    """The files of all crates."""
    crates = [folder for folder in sorted((HOME / "crates").iterdir()) if folder.is_dir()]
    return {key: module for folder in crates for key, module in modules_of(folder)}


def places(found):
    """The names of a group, in order."""
    return tuple(sorted(f"{module.crate}.{module.name.partition('.')[2]}.{name}" for module, name, _, _ in found))


def listed(groups, table):
    """Prints the groups that occur twice and aren't in the table, and the rows that are no groups; how many they are."""
    twice = {places(found): found for found in groups.values() if len(found) > 1}
    wrong = 0
    for names, found in sorted(twice.items()):
        if names in table and "--list" not in sys.argv:
            continue
        wrong += names not in table
        print(f"{len(found)} times{', in the table' * (names in table)}:")
        for module, name, is_public, size in found:
            print(f"    {module.path.relative_to(HOME)}: {'pub ' * is_public}{name}, {size} lines")
    for names in sorted(table - twice.keys()):
        wrong += 1
        print(f"no such group: {', '.join(names)}")
    print(f"{sum(map(len, groups.values()))} lemmas; {len(twice)} statements occur twice, {len(twice.keys() & table)} of them in the table")
    return wrong


def bare(statement):
    """A statement by its last names alone."""
    return tuple(re.sub(r"^[\w.]*\.(?=[^.]+$)", "", token) for token in statement)


def list_std(groups):
    """Prints the lemmas whose statement a lemma of the kit has."""
    modules = dict(pair for name in ("std", "core", "std_alloc") for pair in modules_of(KIT / name, f"kit {name}"))
    kit = {bare(statement): one for statement, found in statements(modules).items() for one in found if one[2]}
    for statement, found in groups.items():
        if there := kit.get(bare(statement)):
            for module, name, _, size in found:
                print(f"{module.path.relative_to(HOME)}: {name}, {size} lines: {there[0].path.relative_to(KIT)}: {there[1]}")


def main():
    groups = statements(own_modules())
    if "--std" in sys.argv:
        list_std(groups)
    sys.exit(listed(groups, allowed()) > 0)


if __name__ == "__main__":
    main()
