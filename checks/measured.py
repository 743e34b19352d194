#!/usr/bin/env python3
"""Looks for measured figures without their command on the pages: `checks/measured.py`.

A figure is a number, in digits or in words, of seconds, minutes or hours, of bytes or their
multiples (of memory, or of anything else), or of instructions. Its passage must name one of
COMMANDS that prints figures of this kind. A passage is a heading, a paragraph, an entry of a list,
a table or an indented block. A table or a block has also the commands of the passage directly above
it, a paragraph those of the table or block directly above it, and one that ends with a colon those
of the block below. On the pages of WHOLE one sentence names the command for all times.

Sizes that the code fixes are compared with it: those of FIXED with the lines of a source, and those
with a comma are numbers of `checks/figures.py`. The figures of REPEATED are compared with those
that they repeat, and the text of docs/GATE.md with its table. It ends with 1 if a figure has no
command, or differs.
"""
import re
import sys
from collections import Counter
from typing import NamedTuple

import figures
from crates import HOME

WORDS = ("zero one two three four five six seven eight nine ten eleven twelve thirteen fourteen "
         "fifteen sixteen seventeen eighteen nineteen twenty").split()
VALUES = {**{word: number for number, word in enumerate(WORDS)}, "a": 1, "an": 1, "thirty": 30,
          "forty": 40, "fifty": 50, "sixty": 60,
          "half a": 1 / 2, "a third of a": 1 / 3, "a fifth of a": 1 / 5}
UNITS = {
    "times": {"microsecond": 1e-6, "ms": 1e-3, "s": 1, "second": 1, "minute": 60, "hour": 3600},
    "sizes": {"byte": 1, "KB": 1e3, "MB": 1e6, "GB": 1e9, "KiB": 2**10, "MiB": 2**20, "GiB": 2**30},
    "instructions": {"instruction": 1},
}
KINDS = {unit: kind for kind, units in UNITS.items() for unit in units}
DIGITS = r"\d[\d,]*(?:\.\d+)?"
WORD = rf"(?:half an?|an? (?:third|fifth|tenth|fraction) of a|an? few|{'|'.join(VALUES)})"
NUMBER = rf"(?<![\w.,^-])(?:{DIGITS}|{WORD})(?:(?:,| to| or| and) (?:{DIGITS}|{WORD}))*"
FIGURE = re.compile(rf"({NUMBER})(?: million)? ({'|'.join(KINDS)})s?\b")
# Not a measured figure: the second of two, some bytes of a text, and a name that gets an s.
NO_FIGURE = re.compile(rf"(?<!takes )(?<!took )(?<!than )(?<!half )(?<! of )(?<!in )a second|"
                       rf"\b(?:{WORD}) (?:bytes?|m?s)$")
TIMES, SIZES, ALL = {"times"}, {"sizes"}, {"memory", *UNITS}
COMMANDS = {
    r"time(?: .+)?": TIMES,
    r"/usr/bin/time -v.*": ALL - {"instructions"},
    r"(?:du -sh|wc -c|ls -l).*": SIZES,
    r"(?:python3 )?checks/(?:gate|desk_plan|desk_out)\.py.*": TIMES,
    r"(?:python3 )?checks/view_check\.py.*": TIMES | SIZES,
    r"(?:bench/)?(?:replay|worlds|changes|quiet|plans|rows|ovs|small)\.py.*": ALL,
    r"bench/small\.py.*|valgrind.*": ALL,
}
WHOLE = {
    "desk/README.md": "Times on this page are seconds of the processor, user and system, as `time` "
                      "prints them",
    "docs/FIRST_HOUR.md": "The seconds are as `time` prints them",
}
# Pages and words with a size, the source that fixes it, and what is before the number there.
FIXED = (
    ("docs/DECISIONS.md", "16 bytes", "message_bag/src/firsts.rt", r"size_of::<Span>\(\) <= "),
    ("docs/DECISIONS.md", "a slot of at most 16 bytes", "travelling/src/held_flight.rt",
     r"size_of::<Option<HeldFlight>>\(\) <= "),
    ("docs/DECISIONS.md", "at most 104 bytes", "travelling/src/stored_flight.rt",
     r"size_of::<StoredFlight>\(\) <= "),
    ("docs/DECISIONS.md", "room for 4 MiB", "message_bag/src/firsts.rt", r"FIRST_BYTES: usize = "),
    ("docs/DECISIONS.md", "Up to 800 bytes of lines", "journal_text/src/write.rt",
     r"ROOMY_BYTES: usize = "),
    ("docs/DECISIONS.md", "is known of a packet takes 28 bytes", "trace_audit/src/packets.rt",
     r"size_of::<TracePacket>\(\) <= "),
    ("docs/CLAUSES.md", "at most 40 bytes", "journal/src/item.rt", r"ITEM_SIZE: usize = "),
    ("docs/KIT.md", "at most 40 bytes", "journal/src/item.rt", r"ITEM_SIZE: usize = "),
    ("docs/KIT.md", "at most 28 bytes", "journal/src/packed_leaving.rt",
     r"size_of::<PackedLeaving>\(\) <= "),
    ("bench/README.md", "at most 40 bytes", "journal/src/item.rt", r"ITEM_SIZE: usize = "),
    ("bench/README.md", "at most 16 bytes", "message_bag/src/firsts.rt", r"size_of::<Span>\(\) <= "),
    ("bench/README.md", "room for 4 MiB", "message_bag/src/firsts.rt", r"FIRST_BYTES: usize = "),
)
# A page and words with a figure, what is repeated there, and the least and the greatest ratio.
REPEATED = (
    ("README.md", r"about (30 minutes) on", "docs/GATE.md", r"(\d+ minutes) of wall time", 0.8, 1.2),
    ("docs/FIRST_HOUR.md", r"takes (30 minutes) on", "docs/GATE.md", r"(\d+ minutes) of wall time",
     0.8, 1.2),
    ("README.md", r"(\d+ GB) of disk", "docs/GATE.md", r"(\d+ GB) of disk", 1, 1),
    ("README.md", r"(\d+ GB) of memory and", "docs/GATE.md", r"(\d+ GB) of memory", 1, 1.5),
    ("crates/examples/data/policy_samples/README.md", r"take (0.3 s) of", "desk/README.md",
     r"in a policy, the script takes (a third of a second)", 0.8, 1.2),
    ("crates/examples/data/topology_samples/README.md", r"takes (a fifth of a second)",
     "desk/README.md", r"in a network, take (a fifth of a second)", 1, 1),
    ("crates/examples/data/traffic_samples/README.md", r"a capture, (2.6 s) from", "desk/README.md",
     r"in a schedule, take (three seconds)", 0.8, 1.2),
    ("docs/MAP.md", r"at most (five seconds)", "checks/desk_plan.py", r"within (\w+ seconds)", 1, 1),
    ("model/README.md", r"more than (five seconds)", "checks/desk_plan.py", r"within (\w+ seconds)",
     1, 1),
)


class Passage(NamedTuple):
    """A passage of a page: its first line, what it is, its lines."""

    start: int
    kind: str
    lines: list

    def text(self):
        return " ".join(line.strip() for line in self.lines)

    def line_at(self, place):
        """The line of the page that has this place of the text."""
        lengths = [len(line.strip()) + 1 for line in self.lines]
        return self.start + next(at for at in range(len(lengths)) if place < sum(lengths[: at + 1]))

    def kinds(self):
        """The kinds of figures that the commands named in it print."""
        named = re.findall(r"`([^`]+)`", self.text())
        if self.kind == "block":
            named += [line.strip().removeprefix("$ ") for line in self.lines]
        found = (COMMANDS[form] for one in named for form in COMMANDS if re.fullmatch(form, one))
        return set().union(*found)


def kind_of(line, before, kind):
    """What a line belongs to: a block, a table, a heading or a text."""
    if line.startswith("    ") and (not before or kind == "block"):
        return "block"
    return "table" if line.startswith("|") else "heading" if line.startswith("#") else "text"


def passages_of(text):
    """The passages of a page, in order."""
    found, before = [], ""
    for number, line in enumerate(text.splitlines(), 1):
        last = found[-1].kind if found else None
        kind = kind_of(line, before, last)
        is_entry = kind == "text" and re.match(r"\s*(-|\d+\.) ", line)
        if line.strip():
            if not before or kind != last or is_entry:
                found.append(Passage(number, kind, []))
            found[-1].lines.append(line)
        before = line.strip()
    return found


def allowed(passages):
    """For each passage the kinds of figures that it may have."""
    found = [passage.kinds() for passage in passages]
    for at, (above, passage) in enumerate(zip(passages, passages[1:]), 1):
        if passage.kind in ("table", "block") or above.kind in ("table", "block"):
            found[at] |= found[at - 1]
        if passage.kind == "block" and above.text().endswith(":"):
            found[at - 1] |= passage.kinds()
    return found


def figures_in(text):
    """The figures of a text: what it says, the kind, and its place."""
    for match in FIGURE.finditer(text):
        begin = max(0, match.start() - len("takes "))
        if match[1][0].isdigit() or not NO_FIGURE.search(text, begin, match.end()):
            is_memory = text.startswith(" of memory", match.end())
            yield match[0], "memory" if is_memory else KINDS[match[2]], match


def value_of(text):
    """The number of a figure in its least unit."""
    match = FIGURE.fullmatch(text)
    number = VALUES.get(match[1]) or float(match[1].replace(",", ""))
    return number * UNITS[KINDS[match[2]]][match[2]]


def is_in(form, text, match):
    """Whether a figure is within words of this form."""
    spans = (found.span() for found in re.finditer(form, text))
    return any(start <= match.start() and match.end() <= end for start, end in spans)


def is_compared(page, text, match):
    """Whether a figure is compared with another one, here or as a number of checks/figures.py."""
    if page in figures.PAGES and re.fullmatch(r"\d{1,3}(,\d{3})+ bytes", match[0]):
        return True
    return any(
        there == page and is_in(words, text, match) for there, words, *_ in (*FIXED, *REPEATED)
    )


def page_faults(page, counted):
    """The figures of a page whose command isn't named."""
    text = (HOME / page).read_text()
    whole = WHOLE.get(page)
    if whole and whole not in " ".join(text.split()):
        yield f"{page}: it doesn't say {whole!r}"
    passages = passages_of(text)
    for passage, kinds in zip(passages, allowed(passages)):
        content = passage.text()
        for said, kind, match in figures_in(content):
            counted[kind] += 1
            is_told = kind in kinds or whole and kind == "times"
            if not is_told and not is_compared(page, content, match):
                line = passage.line_at(match.start())
                yield f"{page}:{line}: {said!r}, and no command that prints it"


def fixed_faults():
    """The sizes on pages that differ from those in the code."""
    for page, words, path, before in FIXED:
        text = " ".join((HOME / page).read_text().split())
        found = re.search(before + r"(\d[\d_]*)", (HOME / "crates" / path).read_text())
        stated = next((said for said, *_ in figures_in(words)), None)
        if words not in text or not found:
            yield f"{page}: {words!r} isn't there, or {before!r} in crates/{path}"
        elif value_of(stated) != int(found[1].replace("_", "")):
            yield f"{page}: {words!r}, and crates/{path} has {found[1]}"


def repeated_faults():
    """The figures that differ from those that they repeat."""
    for page, words, other, repeated, least, most in REPEATED:
        texts = [" ".join((HOME / path).read_text().split()) for path in (page, other)]
        one, two = re.search(words, texts[0]), re.search(repeated, texts[1])
        if not (one and two):
            yield f"{page}: {words!r}, or {other}: {repeated!r} isn't there"
        elif not least <= value_of(one[1]) / value_of(two[1]) <= most:
            yield f"{page}: {one[0]!r}, and {other} has {two[0]!r}"


def gate_faults():
    """What in the text of docs/GATE.md isn't as in its table."""
    text = (HOME / "docs/GATE.md").read_text()
    rows = re.findall(r"^\| (`?[\w ]+`?)((?: \| \d+){7}) \|$", text, re.M)
    table = {name.strip("`"): [*map(int, re.findall(r"\d+", cells))] for name, cells in rows}
    sums = table.pop("All crates")
    for column, total in enumerate(sums):
        if abs(total - sum(cells[column] for cells in table.values())) > 1:
            yield f"docs/GATE.md: the sum {total} of column {column + 2}"
    proofs, tests, edits = (round(total / 60) for total in sums[4:])
    whole, unit = sum(sums[4:]), table["five_tuple"][4]
    chain = re.search(r"The longest chain is ([^:]*):", text)[1]
    seconds = sum(table[name][4] for name in re.findall(r"`(\w+)`", chain))
    for wanted in (
        f"is {whole / 60:.0f} processor minutes: {proofs} for proofs, {tests} for tests, "
        f"{edits} for edits. That is {whole / unit:.0f} times the proof of `five_tuple`",
        f"The proof of `five_tuple` took {unit} seconds",
        f"`examples`, which is only compiled, {table['examples'][4]} seconds",
        f"by the table of `checks/gate.py` its proofs take {seconds:,} seconds",
        f"the {WORDS[table['difane_cli'][3]]} of `difane_cli` last",
    ):
        if wanted not in " ".join(text.split()):
            yield f"docs/GATE.md: by the table it must say {wanted!r}"


def pages():
    yield from ("README.md", "bench/README.md", "model/README.md")
    for form in ("docs/*.md", "desk/**/*.md", "crates/examples/data/*/README.md"):
        yield from (str(path.relative_to(HOME)) for path in sorted(HOME.glob(form)))


def main():
    counted = Counter()
    found = [fault for page in pages() for fault in page_faults(page, counted)]
    found += [*fixed_faults(), *repeated_faults(), *gate_faults()]
    kinds = ", ".join(f"{count} {kind}" for kind, count in sorted(counted.items()))
    print(*found, f"figures with a command on the pages: {kinds}; compared: {len(FIXED)} with the code, "
          f"{len(REPEATED)} with another page, docs/GATE.md with its table", sep="\n")
    sys.exit(bool(found))


main()
