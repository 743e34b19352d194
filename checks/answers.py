#!/usr/bin/env python3
"""Checks docs/PROVED.md and docs/CLAUSES.md against the sources: `checks/answers.py [PAGE..]`.

A section whose heading names a crate in backticks is that crate's. Its tables with a last column
"Clause" have three kinds of rows, by the first cell:

- Empty: a fact, with at least one reference in the last cell.
- Calls of the crate; the row says what they return. The last cell names clauses that each of them
  has, `ensures` for the one without a name, and references to others.
- Calls whose second cell says "never out of memory"; those after the word "except" are left out.

A reference is `call.clause`, or only the call if its contract has one clause, with a crate and `::`
before it if it is another crate's; `*` matches any letters. In all other text of a page, words in
backticks that begin with a crate's name are references, and in a crate's section also
`call.clause`.

It ends with 1 if a named crate, call or clause doesn't exist, if a row names no clause, if a public
call that may return `None`, `false` or an error has no row of the second kind, or if a call that is
said never to run out of memory may return that it did.
"""
import re
import sys
from fnmatch import fnmatchcase
from functools import cache
from pathlib import Path

HOME = Path(__file__).resolve().parent.parent
PAGES = "PROVED.md", "CLAUSES.md"
CLAUSE = re.compile(r"(ensures|requires)( \w+)?\s*$")


def head_of(text):
    """A function's signature and contract: all before its body, or before the semicolon if it has
    none."""
    depth = 0
    for place, letter in enumerate(text):
        if depth == 0:
            if letter == ";" or letter == "{" and not CLAUSE.search(text[:place]):
                return text[:place]
        depth += (letter in "([{") - (letter in ")]}")
    return text


class Call:
    """A function's clauses, and whether its answer may be `None`, `false` or an error."""

    def __init__(self, text):
        head = head_of(re.sub(r"//.*", "", text))
        names = re.findall(r"\bensures(?: (\w+))? \{", head)
        self.clauses = [name or "ensures" for name in names]
        answer = re.search(r"->(.*?)(?=\b(?:requires|ensures)\b|$)", head, re.S)
        self.answer = set(re.findall(r"\w+", answer.group(1))) if answer else set()
        self.may_refuse = bool(self.answer & {"Option", "Result", "bool"})


def owner_of(line):
    """The trait of a top-level line, or the type of its `impl`."""
    found = re.match(r"pub trait (\w+)|impl(?:<.*?>)? (?:.* for )?(\w+)", line)
    return found and (found.group(1) or found.group(2))


@cache
def calls_of(crate):
    """The functions of a crate by name, methods as `Type::name`; and which of them are public."""
    calls, public = {}, set()
    for file in sorted((HOME / "crates" / crate / "src").glob("**/*.rt")):
        lines = file.read_text().splitlines()
        owner, trait = None, False
        for number, line in enumerate(lines):
            if line and not line[0].isspace():
                owner, trait = owner_of(line), line.startswith("pub trait")
            found = re.match(r"\s*(pub )?(?:const )?fn (\w+)", line)
            if found:
                name = f"{owner}::{found.group(2)}" if line[0].isspace() else found.group(2)
                if name not in calls or found.group(1):
                    calls[name] = Call("\n".join(lines[number:]))
                if found.group(1) or trait:
                    public.add(name)
    return calls, public


def offered(crate):
    """The public calls of a crate that its root offers, and whose answer may be a refusal."""
    root = HOME / "crates" / crate / "src/lib.rt"
    text = root.read_text() if root.exists() else ""
    names = set(re.findall(r"^pub (?:fn|struct|enum|trait) (\w+)", text, re.M))
    for group, one in re.findall(r"^pub use (?:\w+::)+(?:\{([^}]*)\}|(\w+));", text, re.M):
        names.update(re.findall(r"\w+", group or one))
    calls, public = calls_of(crate)
    return {call for call in public if call.split("::")[0] in names and calls[call].may_refuse}


@cache
def wants_of_memory(crate):
    """The types of a crate that have a variant for running out of memory, and std's."""
    names = {"AllocError"}
    for file in sorted((HOME / "crates" / crate / "src").glob("**/*.rt")):
        enums = re.findall(r"^pub enum (\w+)[^{]*\{(.*?)^\}", file.read_text(), re.S | re.M)
        names.update(name for name, body in enums if re.search(r"^    NoMemory,", body, re.M))
    return names


@cache
def crates():
    return sorted(folder.parent.name for folder in (HOME / "crates").glob("*/src"))


def names_in(cell):
    return re.findall(r"`([^`]+)`", cell)


def matching(names, pattern):
    return [name for name in names if fnmatchcase(name, pattern)]


def missing_call(crate, call):
    return None if call in calls_of(crate)[0] else f"no call {call} in {crate}"


def missing(crate, reference):
    """What isn't there of a reference in a section of the crate, if anything."""
    first, _, rest = reference.partition("::")
    if rest and first.islower():
        crate, reference = first, rest
    if crate not in crates():
        return f"no crate {crate}"
    call, _, clause = reference.partition(".")
    calls = calls_of(crate)[0]
    found = matching(calls, call)
    if not found:
        return f"no call {call} in {crate}"
    if clause and not any(matching(calls[name].clauses, clause) for name in found):
        return f"no clause {clause} of {crate}::{call}"
    if not clause and "*" not in call and len(calls[call].clauses) != 1:
        return f"{crate}::{call} has {len(calls[call].clauses)} clauses"
    return None


def check_answer(crate, calls, clauses):
    """The faults of a row that says what calls answer."""
    yield from (missing_call(crate, call) for call in calls)
    if not clauses:
        yield f"no clause for an answer of {', '.join(calls)}"
    own = [calls_of(crate)[0][call].clauses for call in calls if not missing_call(crate, call)]
    for name in clauses:
        if all(names.count(name) == 1 for names in own):
            continue
        fault = missing(crate, name)
        of_row = fault and re.fullmatch(r"\w+", name)
        yield f"no clause {name} of {', '.join(calls)}" if of_row else fault


def check_memory(crate, cell):
    """The faults of a row of the calls that never run out of memory."""
    named, _, others = cell.partition(" except ")
    left_out = names_in(others)
    yield from (missing_call(crate, call) for call in left_out)
    calls, public = calls_of(crate)
    for pattern in names_in(named):
        found = matching(public, pattern)
        if not found:
            yield f"no public call {pattern} in {crate}"
        for call in sorted(set(found) - set(left_out)):
            if calls[call].answer & wants_of_memory(crate):
                yield f"{crate}::{call} may report out of memory"


def check_row(cells, crate, listed):
    """The faults of a row of a crate's table; calls of answers are added to those listed."""
    calls, clauses = names_in(cells[0]), names_in(cells[-1])
    if cells[1].strip().startswith("never out of memory"):
        yield from check_memory(crate, cells[0])
    elif calls:
        listed.update((crate, call) for call in calls)
        yield from check_answer(crate, calls, clauses)
    else:
        if not clauses:
            yield "no clause for a fact"
        yield from (missing(crate, name) for name in clauses)


def check_text(line, crate):
    """The faults of a line of text, or of a table that has no clauses."""
    if head := re.fullmatch(r"#+ `(\w+)`", line):
        yield None if head.group(1) in crates() else f"no crate {head.group(1)}"
    for name in names_in(line):
        clause = re.fullmatch(r"(\w+::)*\w+\.(?!rt$|py$|md$|antt$)\w+", name)
        if crate and clause or name.split("::")[0] in crates() and "::" in name:
            yield missing(crate, name)


class Sections:
    """Which crate's section a line stands in, and whether in a table of clauses."""

    def __init__(self):
        self.crate, self.depth, self.has_clauses, self.cells = "", 0, False, []

    def take(self, line):
        if line.startswith("#"):
            depth = len(line) - len(line.lstrip("#"))
            named = [name for name in names_in(line) if name in crates()]
            if named or depth <= self.depth:
                self.crate, self.depth = (named or [""])[0], depth
        begins = line.startswith("|") and not self.cells
        self.cells = re.split(r"(?<!\\)\|", line)[1:-1] if line.startswith("|") else []
        if begins:
            self.has_clauses = self.cells[-1].strip() == "Clause"
        return self.crate and self.cells and self.has_clauses and not (begins or "---" in line)


def check_page(page, listed):
    """The faults of the page, each with its line."""
    sections = Sections()
    for number, line in enumerate(page.read_text().splitlines(), 1):
        if sections.take(line):
            found = check_row(sections.cells, sections.crate, listed)
        else:
            found = check_text(line, sections.crate)
        yield from (f"{page}:{number}: {fault}" for fault in found if fault)


def main():
    pages = [Path(page) for page in sys.argv[1:]] or [HOME / "docs" / name for name in PAGES]
    listed = set()
    faults = [fault for page in pages for fault in check_page(page, listed)]
    for crate in crates():
        left = sorted(call for call in offered(crate) if (crate, call) not in listed)
        faults += [f"{pages[-1]}: not listed: {crate}::{call}" for call in left]
    print("\n".join(faults) or f"{len(listed)} calls, all clauses there")
    sys.exit(bool(faults))


main()
