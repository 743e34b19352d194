#!/usr/bin/env python3
"""Compares numbers on the pages with the definitions: `checks/figures.py`.

Each number of PAGES that is written with commas, as 990,000, must be that of a definition of
LIMITS, one more than it, or one of OTHERS, which says where it comes from. Each phrase of `counts`
must be on its page, and have the number of what it counts: variants, fields, clauses, commands.
Code, and numbers that checks/theorem.py counts, are left out. It ends with 1 if a number or a
phrase is wrong.

Seconds and sizes that were measured are left to checks/measured.py. No script checks results that
a page says were run by hand.
"""
import re
import sys

from crates import HOME

PAGES = ("README.md", "docs/PROVED.md", "docs/CLAUSES.md", "docs/THEOREM.md", "docs/TRUST.md",
         "docs/FORMATS.md", "docs/GLOSSARY.md", "docs/DECISIONS.md", "docs/MAP.md",
         "crates/examples/data/codes/README.md")
# Each with its file and what is before the number there.
LIMITS = (
    ("policy_file/specs/Reading.antt", r"if place == "),
    ("partition/specs/Plan.antt", r"partition_plan_of rows net = if nat_lt "),
    ("command_inputs/specs/Codes.antt", r"command_input_most_file_bytes = "),
    ("command_inputs/specs/Codes.antt", r"command_input_most_trace_bytes = "),
    ("update_machine/specs/Full.antt", r"machine_journal_full_at = "),
    ("control_laws/specs/Sends.antt", r"ControlStepsSendAtMost setting journal |ControlStepsSendAtMost "),
    ("control_laws/specs/Sends.antt", r"control_messages_sent_count journal ≤ "),
    ("packet_laws/specs/Hops.antt", r"most_packet_hops = "),
    ("steps/specs/Limits.antt", r"max_events = "),
    ("steps/specs/Steps.antt", r"max_step_number = "),
    ("command_line/specs/Grammar.antt", r"greatest_load_argument = "),
    ("net_file/specs/Net.antt", r"row.room ≤ "),
    ("net_file/specs/Net.antt", r"net.cache ≤ "),
    ("lines/specs/Pushes.antt", r"take "),
    ("wire/specs/Assembly.antt", r"too_long : "),
    ("journal_text/proofs/JournalLineLengths.antt", r"IsWithin (?=1241)"),
    ("switch_table/src/masks.rt", r"LEAST_WAIT: usize = "),
)
OTHERS = {
    "262,144": "64^3 packets, by the three levels of marks",
    "4,294,967,295": "the greatest number of 32 bits",
    "4,500": "five rows of 900 words each",
    "25,000": "MOST_PATHS of checks/paths.py, compared below",
}
FIGURE = r"(?<![\w.,])\d{1,3}(?:,\d{3})+(?![\w,]\d)"
NUMBERS = ("no one two three four five six seven eight nine ten eleven twelve thirteen fourteen "
           "fifteen sixteen").split()


def text_of(path):
    return (HOME / path).read_text()


def body_of(path, head):
    """What is between this head and the next line that begins at the left edge."""
    return re.search(rf"{head}.*?\n(.*?)(?:\n(?=\S)|\Z)", text_of(path), re.S)[1]


def variants(path, name):
    return len(re.findall(r"^    [A-Z]\w*\b", body_of(path, rf"pub enum {name}\b"), re.M))


def fields(path, name):
    return len(re.findall(r"^  pub \w+ :", body_of(path, rf"pub record {name}\b"), re.M))


def enums_with_memory():
    """The enums of the code in which running out of memory is a variant."""
    for path in sorted(HOME.glob("crates/*/src/**/*.rt")):
        for name, body in re.findall(r"^pub enum (\w+)[^{]*\{(.*?)^\}", path.read_text(), re.S | re.M):
            if re.search(r"^    NoMemory,", body, re.M):
                yield name


def counts():
    """Page, phrase and the number that it must have."""
    summary = "crates/journal_reports/src/summary.rt"
    counted = len(re.findall(r"^    pub \w+: ", body_of(summary, "pub struct Summary"), re.M))
    for page in ("docs/PROVED.md", "docs/CLAUSES.md", "docs/FORMATS.md"):
        yield page, "eleven counts|eleven lines", counted
    yield "docs/THEOREM.md", "thirteen kinds of steps", variants("crates/steps/src/step.rt", "Step")
    whole = fields("crates/packet_laws/specs/Whole.antt", "PacketLawsKeepVersionsWhole")
    yield "docs/THEOREM.md", "first fourteen are fields of its `versions`", whole
    laws = text_of("crates/wrong_journals/src/laws.rt")
    right = re.search(r"pub fn right_journals_hold.*?\{\}", laws, re.S)[0]
    yield "docs/THEOREM.md", "six right journals", right.count("IsRightTriedJournal ")
    refused = body_of("crates/wire/specs/Assembly.antt", "pub data IsRefusedWireFrame")
    cases = len(re.findall(r"^  \w+ :", refused, re.M))
    yield "docs/CLAUSES.md", "six cases (`IsRefusedWireFrame`)", cases
    grow = text_of("crates/update_machine/src/laws.rt").partition("pub fn machine_journals_grow")[2]
    ways = grow.partition("\n{}")[0].count("ensures ")
    yield "docs/CLAUSES.md", "five ways to read it", ways
    others = len(set(enums_with_memory()) - {"Failure"})
    yield "docs/DECISIONS.md", "Seven other enums have running out of memory", others
    known = text_of("docs/FORMATS.md").partition("### What each command may end with")[2]
    table = known.partition("Files are read")[0]
    rows = re.findall(r"^\| ((?:`\w+`(?:, )?)+) \|", table, re.M)
    yield "desk/README.md", "seven commands", len(re.findall(r"`\w+`", " ".join(rows)))
    paths = text_of("checks/paths.py")
    yield "docs/MAP.md", "longer chain than 14", int(re.search(r"LONGEST_CHAIN = (\d+)", paths)[1])
    most = int(re.search(r"MOST_PATHS = ([\d_]+)", paths)[1].replace("_", ""))
    yield "docs/MAP.md", "more than 25,000 paths", most
    calls, ends = map(int, re.findall(r"\], (\d+)\),", text_of("checks/frames.py")))
    yield "docs/MAP.md", "packet that enters, at most 14,", calls
    yield "docs/MAP.md", "its last item, at most three", ends


def number_in(phrase):
    """The number of a phrase, in words or in digits."""
    digits = re.search(r"\d[\d,]*", phrase)
    words = [word for word in phrase.lower().split() if word in NUMBERS]
    return NUMBERS.index(words[0]) if words else int(digits[0].replace(",", ""))


def faults():
    known = {}
    for path, before in LIMITS:
        found = re.search(rf"(?:{before})(\d[\d_]*)", text_of(f"crates/{path}"))
        if not found:
            yield f"crates/{path}: nothing like {before!r} and a number"
            continue
        value = int(found[1].replace("_", ""))
        known |= {f"{value:,}": path, f"{value + 1:,}": path}
    for page in PAGES:
        for number, line in enumerate(text_of(page).splitlines(), 1):
            if line.startswith(("| the ", "| of it ", "| types ", "| what held ")):
                continue  # the table of checks/theorem.py
            for figure in re.findall(FIGURE, re.sub(r"`[^`]*`", "", line)):
                if figure not in known and figure not in OTHERS:
                    yield f"{page}:{number}: {figure} is the number of no definition of LIMITS"
    for page, phrases, count in counts():
        text = " ".join(text_of(page).split())
        there = [phrase for phrase in phrases.split("|") if phrase in text]
        if not there:
            yield f"{page}: it doesn't say {phrases!r}"
        for phrase in there:
            if number_in(phrase) != count:
                yield f"{page}: {phrase!r}, and there are {count:,}"


def main():
    found = list(faults())
    print("\n".join(found) or f"{len(LIMITS)} limits, {len(list(counts()))} counts: as on the pages")
    sys.exit(bool(found))


if __name__ == "__main__":
    main()
