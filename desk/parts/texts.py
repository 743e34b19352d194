"""The answers of desk/ask as text: one function a question."""
from .packets import TRAVELLING
from .story import header_text
from .table import plural, table

NAMED = 10  # packets of a list, of which more are counted only


def share(part, whole):
    return f"{100 * part / whole:.1f}%" if whole else "-"


def ends(found):
    yield plural(found["packets"], "packet")
    yield from table(["end", "packets"], found["ends"].items())
    if found["ports"]:
        yield ""
        yield from table(["port", "packets"], [(int(k), n) for k, n in found["ports"].items()])


def rules(found):
    for version in found["versions"]:
        file = version["policy"] or "its policy isn't in the folder, so unused rows aren't known"
        before = version["change of"]
        is_change = before is not None
        yield f"version {version['version']}: {file}{change_text(before)}"
        rows = [
            (rule["authority"] + rule["cache"], rule["authority"], rule["cache"], rule["rule"],
             *[rule["file"] or "-"] * is_change, rule["line"] or "-", rule["says"])
            for rule in version["rules"]
        ]
        places = [*["file"] * is_change, "line"]
        yield from table(["packets", "authority", "cache", "rule", *places, "says"], rows)
        unused = [row[3] for row in rows if row[0] == 0 and row[3] != "default"]
        yield f"never used: {' '.join(unused) or 'none'}"


def change_text(before):
    """What is said after the file of a version, where it is a change of the one before."""
    return "" if before is None else f", a change of version {before}"


def caches(found):
    yield f"caches decided {found['cached']} of {plural(found['decided'], 'decided packet')}"
    names = ["switch", "decided", "cached", "rules sent", "delivered", "used"]
    rows = [[one[name] for name in names] for one in found["switches"]]
    rows = [[*row[:3], share(row[2], row[1]), *row[3:]] for row in rows]
    yield from table([*names[:3], "share", *names[3:]], rows)


def packet(found):
    yield f"packet {found['packet']}: {header_text(found['header'])}, {found['end']}"
    said = found["decision"]
    if said and said["line"]:
        yield f"decided by {said['policy']} line {said['line']}: {said['says']}"
    rows = [(one["row"], one["line"], one["words"]) for one in found["lines"]]
    yield from table(["row", "line", "what happened"], rows)
    if found["end"] == TRAVELLING:
        yield "it still travels: no later row moves it"


def updates(found):
    for one in found["updates"]:
        before = change_text(one["change of"])
        yield f"version {one['version']}, from policy file {one['file']}{before}"
        yield from (f"  removed: {text}" for text in one["removed"])
        yield from (f"  added: {text}" for text in one["added"])
        for name in ("submitted", "current", "retired"):
            what = f"version {one['version'] - 1} retired" if name == "retired" else name
            yield f"  {what}: {'row ' + str(one[name]) if one[name] else 'not in this journal'}"
        sent = ", ".join(f"{count} {body}" for body, count in one["messages"].items())
        yield f"  messages: {sum(one['messages'].values())} ({sent})"
        meanwhile = ", ".join(map(meanwhile_text, one["decided meanwhile"].items()))
        yield f"  packets decided meanwhile: {meanwhile or 'none'}"
        yield from (f"  missing: {text}" for text in one["missing"])
        yield from (f"  down and not confirmed: {it}" for it in one["down and not confirmed"])
    for one in found["refused"]:
        yield f"row {one['row']}: the update to policy file {one['file']} is refused: {one['why']}"
    if not found["updates"] and not found["refused"]:
        yield "no updates"


def meanwhile_text(pair):
    """The packets that a version decided while the next one came; of many the first are named."""
    version, packets = pair
    named = " ".join(map(str, packets[:NAMED])) + " .." * (len(packets) > NAMED)
    return f"{len(packets)} by {version} (packet{'s' * (len(packets) > 1)} {named})"


def losses(found):
    if not found["packets"]:
        yield "each packet left or was dropped"
        return
    rows = [(one["packets"], one["end"], one["cause"]) for one in found["causes"]]
    yield from table(["packets", "end", "cause"], rows)
    yield ""
    for one in found["packets"]:
        row = f" in row {one['row']}" if one["row"] else ""
        bound = f", bound for {one['bound for']}" if one["bound for"] else ""
        yield f"packet {one['packet']}: {one['end']}{row} at {one['at']}{bound}: {one['cause']}"
        yield from (f"  found down: {text}" for text in one["found down"])
        yield from (f"  then: {text}" for text in one["unusable"])
