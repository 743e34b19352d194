"""Which rows of policies no header reaches, and a header that reaches each of the others."""
from .boxes import WHOLE, Ranked, places
from .cover import cover, needed
from .mistakes import mistake_of
from .packets import HEADER
from .places import policies_in
from .policies import Change, read_policy
from .script import Mistake
from .story import header_text
from .table import plural, table
from .policy_mistakes import MOST_WORDS
from .words import PROTOCOLS, dotted

import plan_model
import refusals



def answer(case, *names):
    """For each policy file its rows, a change applied to the file before it; or those of one file."""
    paths = [case.folder / name for name in names]
    paths = paths or [case.folder / name for name in policies_in(case.folder)]
    if not paths or not paths[0].is_file():
        raise Mistake(f"there is no file {paths[0] if paths else case.policy_file(1)}")
    check_files(case, [path.name for path in paths])
    found, rows = [], None
    for path in paths:
        stated = read_policy(path)
        is_change = isinstance(stated, Change)
        rows = changed(path, stated, rows) if is_change else stated
        found.append({"policy": path.name, "is change": is_change, **reached(Ranked(rows))})
    return {"policies": found}


def check_files(case, names):
    """That the program doesn't refuse the files; whether there is room for rules isn't asked."""
    net = ["net.toml"] * (case.folder / "net.toml").is_file()
    files, told = refusals.Files(case.folder), ""
    try:
        network = files.network(*net or [None])
        for name in names:
            rows = files.policy(name, network, None)
            if rows and len(rows[0]) == 7 and plan_model.rules_of(rows)[1] > MOST_WORDS:
                raise refusals.Refusal(12)
    except refusals.Refusal as refusal:
        told = f"difane: input {files.name} code {refusal.code} row {refusal.row}"
    except refusals.ReadFault:
        told = "difane: read fault"
    if told:
        args = ["audit", "journal.txt", *names, *(["--net", *net] if net else [])]
        raise mistake_of(case.name, told, args, case.folder)


def changed(path, change, rows):
    """The rows with the change of this file."""
    if rows is None:
        raise Mistake(f"{path} is a change: ask without a FILE, and it is applied to the file "
                      "before it")
    code, at_fault = change.fault(rows)
    if code:
        raise Mistake(f"{path} can't be applied to the file before it (code {code}): "
                      f"{' '.join(sorted(at_fault))}")
    return change.of(rows)


def reached(ranked):
    """The rows that are dead, each with those that cover it, and a header for each other row."""
    live, dead, alive = 0, [], []
    for at, rule in enumerate(ranked.rules):
        free, used = cover(ranked, ranked.boxes[at], live)
        if used is None:
            live |= 1 << at
            alive.append({**row_of(rule), "header": header_in(free)})
        else:
            by = [ranked.rules[one] for one in places(needed(ranked, ranked.boxes[at], used))]
            others = [one.priority for one in by if one.fields[-1] != rule.fields[-1]]
            rows = [one.priority for one in by]
            dead.append({**row_of(rule), "covered by": rows, "of another action": others})
    free, _ = cover(ranked, WHOLE, live)
    return {"rows": len(ranked.rules), "dead": dead, "live": alive,
            "default": free and header_in(free)}


def row_of(rule):
    says = ",".join(rule.fields[1:])
    return {"rule": rule.priority, "file": rule.file, "line": rule.line, "says": says}


def header_in(box):
    """A header of the box: of tcp, udp or icmp where one of these is there, else the first."""
    numbers = [low for low, _ in box]
    low, high = box[-1]
    proto = next((one for one in (6, 17, 1) if low <= one <= high), low)
    named = [dotted(numbers[0]), dotted(numbers[1]), *numbers[2:4], PROTOCOLS.get(proto, proto)]
    return dict(zip(HEADER, map(str, named)))


def text(found):
    """Of each policy the dead rows first."""
    for one in found["policies"]:
        is_change = ", a change of the file before it" if one["is change"] else ""
        yield f"{one['policy']}{is_change}: {plural(one['rows'], 'row')}, {len(one['dead'])} dead"
        if one["dead"]:
            rows = [(*place(row), covers(row), row["says"]) for row in one["dead"]]
            yield from table(["dead", "file", "line", "covered by", "says"], rows)
        rows = [(*place(row), header_text(row["header"]), row["says"]) for row in one["live"]]
        default = header_text(one["default"]) if one["default"] else "no header"
        rows.append(("default", "-", "-", default, "drop"))
        yield from table(["row", "file", "line", "reached by", "says"], rows)


def place(row):
    return row["rule"], row["file"], row["line"]


def covers(row):
    """The rows that cover a dead one, and which of them act otherwise."""
    said, others = " ".join(row["covered by"]), row["of another action"]
    if others == row["covered by"]:
        return f"{said} (another action)"
    return f"{said} (another action: {' '.join(others)})" if others else f"{said} (the same action)"
