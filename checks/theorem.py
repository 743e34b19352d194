#!/usr/bin/env python3
"""Counts what a sceptic must read, for docs/THEOREM.md: `checks/theorem.py [--write] [--list]`.

A definition is reached if a clause of `run` names it, or a definition that is reached does. The
first tier is what is reached without passing one of STOPS; the core of it is what CORE reaches so.
The second tier is what else is reached without passing HELD, and the third part what only HELD
reaches. The page names a file of specs/ as `crate/File.antt`.

It ends with 1 if the files that the page names in its part on a tier aren't exactly those that are
reached; if a file of the first tier has a definition that this tier doesn't reach, or doesn't say
at its head that it is of this tier (MARK), or another file does; if the page's table of the types
declared in src/ doesn't have exactly those that the first tier uses; if a number of the page
differs from the count; if this page or docs/TRUST.md says "`name` of `crate/File.antt`" and there
is no such definition; or if the lines of a wrong journal differ from those in the law of how it
prints, or the facts that refuse it from those in the law of what refuses it. With `--write` it writes the numbers. With
`--list` it prints each file with its lines, how many of them are reached, and what isn't.
"""
import re
import sys
from pathlib import Path

HOME = Path(__file__).resolve().parent.parent
PAGE = HOME / "docs/THEOREM.md"
TRUST = HOME / "docs/TRUST.md"
TOP = HOME / "crates/difane_cli/src/top_call.rt"
WRONG = HOME / "crates/wrong_journals/src/laws.rt"
OFFICE = HOME / "crates/wrong_journals/specs/Office.antt"
# Where the second tier begins, each with what it is about; with its crate where it shares its name.
STOPS = {
    "IsMachinePlay": "the exact journal",
    "PacketStrongCause": "strong causes",
    "partition_plan_of": "plans",
    "policy_change_applied": "changes of policies",
    "IsSoundPolicyFile": "what holds of each policy",
    "PolicyFileRowsAre": "what holds of each policy",
    "PrintArguments": "plans and tables in print",
    "CommandPrintInputs": "plans and tables in print",
    "ProgramPrintOutcome": "plans and tables in print",
    "AuditArguments": "checks of traces",
    "CommandAuditInputs": "checks of traces",
    "ProgramAuditOutcome": "checks of traces",
    "IsProgramTraceGood": "checks of traces",
    "replay_kept_meters": "meters",
    "program_gone_records_by": "flow records",
    "program_flow_text_unless_full": "flow records",
    "ProgramCountsFlows": "flow records",
    "ProgramProposalOutcome": "placements that are proposed",
    "PacketLawsHeldThroughout": "what held on the way",
    "AreCommandInputsWithinLimits": "limits of files",
    "KeepsForwarding": "recovery and rollouts",
    "IsProgramQuietVerdict": "quiet networks",
    "program_asks_quiet": "quiet networks",
    "is_program_verdict_asked": "quiet networks",
    "command_of_arguments": "the grammar of the arguments",
    "net_file.net_of": "how the bytes of a file are read",
    "schedule.schedule_of": "how the bytes of a file are read",
    "policy_file.policy_file_policy_of": "how the bytes of a file are read",
    "policy_file.policy_file_of": "how the bytes of a file are read",
    "ShelfFiles": "how files are held",
    "shelf_file_named": "how files are held",
    "known_command_input_task": "the exact task, and refusals",
    "command_inputs_of_load": "load cases",
    "load_case": "load cases",
    "summary_counts_text": "load cases",
    "IsCommandInputTaskAccepted": "refusals",
    "CommandStatusAccounts": "refusals",
    "CommandStatusNamesOneOf": "refusals",
    "command_input_names": "refusals",
    "ProgramMemoryRanOut": "running out of memory",
    "ProgramGivesBackMeters": "meters",
    "CommandNeedsReadFault": "faults",
    "CommandMayFollowFault": "faults",
    "command_input_most_reads": "reads",
    "IsShelfAfterReads": "reads",
    "CommandInputReadsNothing": "reads",
}
CORE = ("IsMachineRun", "HasMachineCause", "ArePacketRowsEntered")
HELD = ("PacketLawsHeldThroughout",)
MARK = "-- First tier. "  # with this a file of the first tier begins, and no other one
DEFINES = re.compile(r"(?:abbrev pub|unfoldable pub|pub record|pub data|pub) ([^\s:]+)")
TOKEN = re.compile(r"[A-Za-z_][\w-]*(?:\.[A-Za-z_][\w-]*)*")
# the facts of which a wrong journal lacks one or two, and what its law says so by
FACT = re.compile(r"`(IsMachineRun|HasMachineCause|ArePacketRowsEntered)`")
LINE = re.compile(r'codes " *([^"]*)"')
PRINTS = re.compile(r"TriedJournalPrintsAs (\w+)\s+\((\w*printed_\w+)?(.*?)\}", re.S)
REFUSES = {
    "WrongJournalIsNoRun": ["IsMachineRun"],
    "WrongJournalLacksRunAndCause": ["IsMachineRun", "HasMachineCause"],
    "WrongJournalLacksCause": ["HasMachineCause"],
    "WrongJournalLacksRow": ["ArePacketRowsEntered"],
}
# names of fields, which are no definitions
FIELD = re.compile(r"^  +pub [\w-]+ :|(?<=[{;] )[\w-]+ =|^ +[\w-]+ =(?= .*;$)", re.M)
DECLARED = re.compile(r"declared\.([a-z_.]+)\.([A-Z]\w*)(?:\.The\w+)?")
STANDS = re.compile(r"((?:`[\w-]+`(?:,\s+|,?\s+and\s+)?)+)\s+of\s+`([^`\s]*)\.antt`")
USE = re.compile(
    r"^(?:unfoldable )?(?:pub |ghost )?use Rattle\.(\w+)\.specs\.([\w.]+?)(?:\.\{([^}]*)\}| as (\w+));?$", re.M
)
VARIANT = re.compile(r"  ([A-Z]\w*) :")


class Module:
    """A file of specs/: what it imports, and its definitions with their first and last lines."""

    def __init__(self, path):
        self.path = path
        self.lines = path.read_text().splitlines()
        self.names, self.aliases = imports(path.read_text())
        given = {**self.names, **self.aliases}.items()
        self.types = {name: found for name, at in given if (found := declared(*at[:2]))}
        self.definitions, self.variants = {}, {}
        comment, last = None, None
        for at, line in enumerate(self.lines):
            if line.startswith(("use ", "pub use ", "unfoldable pub use ", "-- ----")):
                comment = None
            elif line.startswith("--"):
                comment = at if comment is None else comment
            elif found := DEFINES.match(line):
                first = at if comment is None else comment
                if last:
                    self.definitions[last][1] = first
                last, comment = found.group(1), None
                self.definitions[last] = [first, len(self.lines)]
            elif line.strip():
                comment = None
        for name in self.definitions:
            if any(line.startswith(f"pub data {name} ") for line in self.body(name)):
                found = map(VARIANT.match, self.body(name))
                self.variants |= {variant.group(1): name for variant in found if variant}

    def body(self, name):
        first, last = self.definitions[name]
        return [line for line in self.lines[first:last] if not line.lstrip().startswith("--")]

    def tokens(self, name):
        return TOKEN.findall(FIELD.sub("", "\n".join(self.body(name))))

    def size(self, name):
        first, last = self.definitions[name]
        return sum(1 for line in self.lines[first:last] if line.strip())


def imports(text):
    names, aliases = {}, {}
    for crate, module, listed, alias in USE.findall(text):
        for name in listed.split(", ") if listed else []:
            given, _, local = name.partition(" as ")
            names[local or given] = (crate, module, given)
        if alias:
            aliases[alias] = (crate, module)
    return names, aliases


def declared(crate, module):
    """The file of src/ and the type for which such a module stands, if it is one of declarations in
    a crate of ours."""
    found = DECLARED.fullmatch(module)
    path = found and HOME / "crates" / crate / "src" / f"{found.group(1).replace('.', '/')}.rt"
    return (path, found.group(2)) if found and path.exists() else None


class Specs:
    """All files of specs/ that were looked into."""

    def __init__(self):
        self.modules = {}

    def named(self, crate, module, name):
        path = HOME / "crates" / crate / "specs" / f"{module}.antt"
        if path not in self.modules:
            self.modules[path] = Module(path) if path.exists() else None
        found = self.modules[path]
        if found is None:
            return None
        if name in found.definitions:
            return found, name
        if name in found.variants:
            return found, found.variants[name]
        return self.named(*found.names[name]) if name in found.names else None

    def meant(self, module, token):
        head, *rest = token.split(".")
        if head in module.definitions:
            return module, head
        if head in module.variants:
            return module, module.variants[head]
        if head in module.names:
            return self.named(*module.names[head])
        if head in module.aliases and rest:
            return self.named(*module.aliases[head], rest[0])
        return None

    def reached(self, roots, stops=()):
        """The definitions that these reach, by file; those that are stops aren't looked into, nor
        are they among them."""
        seen, waiting = set(), list(roots)
        while waiting:
            module, name = waiting.pop()
            is_stop = name in stops or f"{module.path.parts[-3]}.{name}" in stops
            if is_stop or (module.path, name) in seen:
                continue
            seen.add((module.path, name))
            for token in module.tokens(name):
                if found := self.meant(module, token):
                    waiting.append(found)
        by_file = {}
        for path, name in seen:
            by_file.setdefault(path, set()).add(name)
        return by_file

    def types(self, by_file):
        """The types that these definitions speak of, by the file of src/ that declares them."""
        by_source = {}
        for path, names in by_file.items():
            module = self.modules[path]
            heads = {token.split(".")[0] for name in names for token in module.tokens(name)}
            for head in heads & set(module.types):
                source, name = module.types[head]
                by_source.setdefault(source, set()).add(name)
        return by_source

    def defines(self, file, name):
        """Whether a file, given as crate/File, defines this name by itself."""
        crate, _, module = file.rpartition("/")
        found = self.named(crate, module, name)
        return bool(found) and found[0].path.parts[-3::2] == (crate, f"{module}.antt")


def clauses():
    """The clauses of the contract of `run`, and the names that its file imports."""
    text = TOP.read_text()
    head = re.search(r"pub fn run<.*?\n(.*?)\n\{\n", text, re.S).group(1)
    contract = head.split("-> Finished\n")[1]
    return [line for line in contract.splitlines() if line.strip()], imports(text)[0]


def tiers(specs):
    """The lines of the contract, the core, the two tiers and the third part, by file."""
    contract, names = clauses()
    tokens = {token.split(".")[0] for line in contract for token in TOKEN.findall(line)}
    roots = [specs.named(*names[token]) for token in sorted(tokens & names.keys())]
    roots = [found for found in roots if found]
    every, first = specs.reached(roots), specs.reached(roots, STOPS)
    three = [(specs.modules[path], name) for path in every for name in every[path] if name in CORE]
    both = specs.reached(roots, HELD)
    second = {path: both[path] for path in both if path not in first}
    third = {path: every[path] for path in every if path not in both}
    return contract, specs.reached(three, STOPS), first, second, third


def lines_of(files):
    return sum(len(path.read_text().splitlines()) for path in files)


def lines_declared(by_source):
    """The lines of these declarations, with their comments and attributes."""
    every = [(path.read_text(), name) for path, names in by_source.items() for name in names]
    return sum(declaration(text, name).count("\n") for text, name in every)


def declaration(text, name):
    body = rf"pub (?:enum|struct) {name}\b.*(?:;|\n(?:.*\n)*?\}})\n"
    return re.search(rf"^(?:(?:///|#\[).*\n)*{body}", text, re.M).group(0)


def misnamed(files, part):
    """The files that are named in the part or among these files, and not in both."""
    wanted = {f"{path.parts[-3]}/{path.stem}.antt" for path in files}
    named = set(re.findall(r"`([^`\s]*\.antt)`", part))
    yield from (f"{name} isn't named" for name in sorted(wanted - named))
    yield from (f"{name} isn't reached" for name in sorted(named - wanted))


def misstated(specs, text):
    """What the text says of where definitions stand, and isn't so."""
    for names, file in STANDS.findall(text):
        for name in re.findall(r"`([\w-]+)`", names):
            if not specs.defines(file, name):
                yield f"`{name}` doesn't stand in `{file}.antt`"


def needless(specs, by_file):
    """The definitions that stand in these files and aren't reached."""
    for path in sorted(by_file):
        for name in sorted(set(specs.modules[path].definitions) - by_file[path]):
            yield f"`{name}` of {path.parts[-3]}/{path.name} isn't needed"


def mismarked(files):
    """The files of this tier that don't say so at their head, and the others that do."""
    every = HOME.glob("crates/*/specs/**/*.antt")
    marked = {path for path in every if path.read_text().startswith(MARK)}
    for path in sorted({*files} - marked):
        yield f"{path.relative_to(HOME)} doesn't begin with '{MARK}'"
    for path in sorted(marked - {*files}):
        yield f"{path.relative_to(HOME)} begins with '{MARK}'"


def mistyped(by_source, page):
    """The rows on types that the page lacks, or has and shouldn't."""
    wanted = set()
    for path, names in by_source.items():
        types = ", ".join(f"`{name}`" for name in sorted(names))
        wanted.add(f"| `{path.relative_to(HOME)}` | {types} |")
    return sorted(wanted ^ {line for line in page.splitlines() if line.startswith("| `crates/")})


def misprinted(page):
    """The wrong journals whose lines, or the facts that refuse them, the page has otherwise than
    the laws, or not at all."""
    rows = re.findall(r"^\| (.*?) \|.*\| (.*?) \| `(\w+)` \|$", page, re.M)
    told = {name: (re.findall(r"`([^`]*)`", cell), FACT.findall(by)) for cell, by, name in rows}
    prints, refused = re.findall(r"^pub fn wrong_.*?^\{\}", WRONG.read_text(), re.M | re.S)
    begun = re.findall(r"^(\w*printed_\w+) =(.*?\[\])$", OFFICE.read_text(), re.M | re.S)
    begins = {name: LINE.findall(text) for name, text in begun}
    lines = {
        name: begins.get(begin, []) + LINE.findall(clause)
        for name, begin, clause in PRINTS.findall(prints)
    }
    judged = {name: REFUSES[kind] for kind, name in re.findall(r"\b([A-Z]\w+) (\w+)", refused)}
    laws = {name: (lines.get(name), judged.get(name)) for name in {*lines, *judged}}
    return sorted(name for name in {*told, *laws} if told.get(name) != laws.get(name))


def listed(specs, by_file):
    for path in sorted(by_file):
        module = specs.modules[path]
        kept = sum(module.size(name) for name in by_file[path])
        others = " ".join(name for name in module.definitions if name not in by_file[path])
        print(f"{len(module.lines):4} {kept:4}  {path.relative_to(HOME / 'crates')}  {others}")


def main():
    specs = Specs()
    contract, core, first, second, third = tiers(specs)
    if "--list" in sys.argv:
        beyond = {path: first[path] for path in first if path not in core}
        for by_file in (core, beyond, second, third):
            listed(specs, by_file)
            print()
    types = specs.types(first)
    rows = [
        f"| the contract of `run` | 1 | {len(contract)} |",
        f"| the first tier | {len(first)} | {lines_of(first):,} |",
        f"| of it the core | {len(core)} | {lines_of(core):,} |",
        "| types declared in `src/` that these speak of "
        f"| {len(types)} | {lines_declared(types):,} |",
        f"| the second tier | {len(second)} | {lines_of(second):,} |",
        f"| what held on the way | {len(third)} | {lines_of(third):,} |",
    ]
    page, wrong = PAGE.read_text(), 0
    for row in rows:
        label = row.split("|")[1]
        if row not in page.splitlines():
            print(row)
            wrong += "--write" not in sys.argv
        page, found = re.subn(rf"^\|{re.escape(label)}\|.*$", row, page, flags=re.M)
        wrong += found != 1
    if "--write" in sys.argv:
        PAGE.write_text(page)
    one, others = page.split("## The first tier\n")[1].split("## The second tier\n")
    two, three = others.split("## What held on the way\n")
    told = [f"first tier: {name}" for name in misnamed(first, one)]
    told += [f"second tier: {name}" for name in misnamed(second, two)]
    told += [f"what held on the way: {name}" for name in misnamed(third, three)]
    told += [f"first tier: {name}" for name in [*needless(specs, first), *mismarked(first)]]
    told += [*mistyped(types, page), *misstated(specs, page), *misstated(specs, TRUST.read_text())]
    told += [f"wrong journals: {law}" for law in misprinted(page)]
    for line in told:
        print(line)
    sys.exit(bool(wrong or told))


if __name__ == "__main__":
    main()
