#!/usr/bin/env python3
"""Checks that one name means one thing: `checks/names.py [--list]`.

It ends with 1 if a definition of `specs/` is in two crates and isn't among those that
docs/GLOSSARY.md lists as meaning the same for two values, or such a row is out of date; if a type
of `src/` is in two; if constants of two crates have the same number and the same last word, as
`MAX_ROWS` and `ROWS`; if a limit is called `MOST`; if the name of a definition, a type, a function
or a file has a word of WORDS, which had several meanings; or if a shared file of `proofs/` has one
word for its name, and not its subject. It prints how many there are of each, and how many lines of
definitions and proofs there are for each line of code. Of tests it looks only at the types. With `--list` it prints what it found of each kind.
"""
import re
import sys
from collections import defaultdict

from crates import HOME, libraries, sources

MOST_SHARED = 10
DEFINES = re.compile(
    r"^(?:abbrev pub|unfoldable pub|pub record|pub data|pub) (?!use |mod )([^\s(){}:]+)", re.M
)
TYPE = re.compile(r"^(?:pub(?:\([^)]*\))? )?(?:struct|enum|trait|type|union) (\w+)", re.M)
FUNCTION = re.compile(r"\bfn (\w+)")
CONSTANT = re.compile(r"\bconst ([A-Z]\w*): [^=;]+ = ([\d_+*<()\s-]+);")
SAME = re.compile(r"^- (.*?) in\s+`(\w+)`[;.]$", re.M | re.S)
LEAST = 8  # a smaller number may stand for anything
# Words that had several meanings, and where each has its one: a packet is on its way to its target;
# a line of a trace tells, and a switch is told of a stamp.
WORDS = {
    "way": r"on_(its_|the_)?way|under_way|OnWay|OnTheWay|UnderWay|both_ways",
    "told": r"^crates/trace_|IsToldToStampPackets",
}


def words_of(name):
    """The words of a name in either spelling, in small letters and the singular."""
    return {word.lower() for word in re.findall(r"[A-Z]+(?![a-z])|[A-Z]?[a-z]+", name)}


def shared_names():
    """The names that the glossary lists: of each the crates where it says the same."""
    page = (HOME / "docs/GLOSSARY.md").read_text().partition("\n| Name |")[0]
    for said, crate in SAME.findall(page):
        for name in re.findall(r"`(\w+)`", said):
            yield name, {"update_machine", crate}


def stands(pattern, *places):
    """Of each name that the pattern finds the crates where it stands."""
    found = defaultdict(set)
    for crate in libraries():
        for path in sources(crate, *places):
            for name in pattern.findall(path.read_text()):
                found[name].add(crate)
    return found


def in_two(found):
    return {name: crates for name, crates in found.items() if len(crates) > 1}


def doubled_definitions():
    """The definitions that stand in two crates and aren't listed, and the rows that have gone."""
    listed = defaultdict(set)
    for name, crates in shared_names():
        listed[name] |= crates
    found = in_two(stands(DEFINES, "specs/**/*.antt"))
    if len(listed) > MOST_SHARED:
        yield f"docs/GLOSSARY.md lists {len(listed)} names of two crates"
    for name in sorted({*found, *listed}):
        if name not in found:
            yield f"docs/GLOSSARY.md lists {name}, which stands in one crate at most"
        elif found[name] != listed.get(name):
            yield f"{name} is in {', '.join(sorted(found[name]))}"


def doubled_types():
    for name, crates in sorted(in_two(stands(TYPE, "src/**/*.rt")).items()):
        yield f"{name} is in {', '.join(sorted(crates))}"


def constants():
    """The numbers of src/, each with its name and its crate."""
    for crate in libraries():
        for path in sources(crate, "src/**/*.rt"):
            if "tests" not in path.parts:
                for name, value in CONSTANT.findall(path.read_text()):
                    yield crate, name, eval(value.replace("_", ""), {})


def doubled_numbers():
    found = defaultdict(set)
    for crate, name, number in constants():
        if number >= LEAST:
            found[number, name.rpartition("_")[2]].add(f"{crate}::{name}")
    for (number, _), there in sorted(found.items()):
        if len({name.partition(":")[0] for name in there}) > 1:
            yield f"{number}: {', '.join(sorted(there))}"


def limits():
    for crate, name, _ in constants():
        if name.partition("_")[0] == "MOST":
            yield f"{crate}::{name}"


def names_of(crate):
    """What is named in a crate, but in its tests."""
    for path in sources(crate, "src/**/*.rt", "specs/**/*.antt"):
        if "tests" not in path.parts and not crate.endswith("_tests"):
            text = path.read_text()
            yield path.stem, path
            for pattern in (DEFINES,) if path.suffix == ".antt" else (TYPE, FUNCTION):
                for name in pattern.findall(text):
                    yield name, path


def words_of_two_meanings():
    for crate in libraries():
        for name, path in names_of(crate):
            for word in words_of(name) & {*WORDS, *(word + "s" for word in WORDS)}:
                place = f"{path.relative_to(HOME)}: {name}"
                if not re.search(WORDS[word.removesuffix("s")], place):
                    yield place


def one_word_files():
    for crate in libraries():
        for path in sources(crate, "proofs/*.antt"):
            if path.stem not in ("Lib", "Exports") and len(words_of(path.stem)) == 1:
                yield str(path.relative_to(HOME))


def lines_for_a_line():
    """The lines of definitions and proofs for each line of code, tests among neither."""
    code = said = 0
    for crate in libraries():
        for path in sources(crate, "src/**/*.rt"):
            code += "tests" not in path.parts and len(path.read_text().splitlines())
        for path in sources(crate, "specs/**/*.antt", "proofs/**/*.antt"):
            said += len(path.read_text().splitlines())
    return said / code


CHECKS = {
    "names of specs/ in two crates, but for those that say the same": doubled_definitions,
    "type names in two crates": doubled_types,
    "numbers that occur twice": doubled_numbers,
    "limits that are called MOST": limits,
    "names with a word of several meanings": words_of_two_meanings,
    "shared proof files of one word": one_word_files,
}


def main():
    wrong = 0
    for title, check in CHECKS.items():
        found = list(check())
        wrong += len(found)
        print(f"{len(found)} {title}")
        for line in found if "--list" in sys.argv or len(found) < 50 else found[:5] + ["..."]:
            print(f"    {line}")
    print(f"{lines_for_a_line():.2f} lines of definitions and proofs for a line of code")
    sys.exit(wrong > 0)


main()
