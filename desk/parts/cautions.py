"""What the program accepts in files and seldom is meant: what is ignored, no drain."""
import ipaddress
import re
import tomllib
from difflib import get_close_matches

from .policies import REFUSED
from .records import header_line, key_line, lines_of, records_of

KEYS = ["leaf_rules", "backups", "cache", "switch", "link"]
ROW_KEYS = {"switch": ["name", "ports", "authority"], "link": ["ends"]}


def network_cautions(lines, name):
    """The unknown keys of a network of these lines; none where they aren't TOML."""
    try:
        net = tomllib.loads("".join(lines))
    except ValueError:
        return
    yield from unknown_keys(net, KEYS, lines, name)
    yield from lonely_switches(net, lines, name)
    for key, known in ROW_KEYS.items():
        rows = net.get(key, [])
        for number, row in enumerate(rows if isinstance(rows, list) else [], 1):
            if isinstance(row, dict):
                start = header_line(lines, key, number)
                what = f"{name}, {key} {number}"
                yield from unknown_keys(row, known, lines, what, start)


def unknown_keys(table, known, lines, what, start=None):
    """A caution for each key of a table that isn't known, with its line where it is found."""
    for key in table:
        if key not in known:
            if start is None:
                at = header_line(lines, key, 1)
            else:
                at = key_line(lines, key, start)
            line = f", line {at}" if at else ""
            yield f"{what}{line}: the key {key} is unknown and ignored{key_hint(key, known)}"


def key_hint(key, known):
    """Which key may be meant, or where it belongs."""
    if key in KEYS and known != KEYS:
        return f": after a [[..]] it belongs to that; put {key} before the first [[switch]]"
    near = get_close_matches(key.lower(), known, 1)
    return f": perhaps {near[0]} is meant" if near else ""


def lonely_switches(net, lines, name):
    """The switches that no links join to a switch with room for rules, where there is one."""
    try:
        rooms = {row["name"]: row.get("authority", 0) for row in net["switch"]}
        links = [set(link["ends"]) for link in net.get("link", [])]
        reached = {one for one, room in rooms.items() if room > 0}
    except (LookupError, TypeError, AttributeError):
        return
    fresh = bool(reached)
    while fresh:
        near = set().union(*(ends for ends in links if ends & reached))
        fresh, reached = near - reached, reached | near
    for number, one in enumerate(rooms, 1):
        if reached and one not in reached:
            at = header_line(lines, "switch", number)
            yield (f"{name}, line {at or 1}: no link joins {one} to an authority: packets that "
                   "enter there are stuck")


def schedule_cautions(path, name, has_network):
    """That nothing moves the last packet, which on a network may still travel then."""
    last, moved, packets = None, False, 0
    for record in records_of(lines_of(path)):
        if record.row and record.fields[0] == "packet":
            last, moved, packets = record, False, packets + 1
        elif record.fields[0] == "drain":
            moved = True
        elif record.fields[0] in ("hop", "lose") and record.fields[1:] == [str(packets)]:
            moved = True
    if has_network and last is not None and not moved:
        yield (
            f"{name}, line {last.line}: there is no row drain after the last packet: "
            "if it is sent on it never arrives"
        )


def prefix_cautions(path, name):
    """The prefixes that have bits after their length, which count for nothing."""
    for record in records_of(lines_of(path)):
        for text in record.fields:
            try:
                is_prefix = re.fullmatch(r"[0-9.]+/[0-9]{1,2}", text)
                meant = str(ipaddress.IPv4Network(text, strict=False)) if is_prefix else text
            except ValueError:
                continue
            if meant != text:
                yield (f"{name}, line {record.line}: {text} has bits after its length: "
                       f"it is read as {meant}")


def later_policy_cautions(folder):
    """The policy files that no replay takes, since one before them isn't there."""
    there = [(folder / f"policy{number}.csv").is_file() for number in range(2, 65)]
    first = there.index(False) if False in there else len(there)
    for number, is_there in enumerate(there[first:], first + 2):
        if is_there:
            yield f"policy{number}.csv is ignored, since policy{first + 2}.csv isn't there"


def name_cautions(folder):
    """The files that would be taken if their names were in small letters."""
    for path in sorted(folder.iterdir()):
        small = path.name.lower()
        is_ours = re.fullmatch(r"policy([2-9]|[1-5]\d|6[0-4])?\.csv|schedule\.csv|net\.toml", small)
        if is_ours and small != path.name and not (folder / small).exists():
            yield f"{path.name} is ignored: its name has to be {small}, in small letters"


def first_ones(texts, most=5):
    """The first of these, and how many more there are."""
    found = list(texts)
    yield from found[:most]
    if len(found) > most:
        yield f"{len(found) - most} more like this"


def folder_cautions(folder, schedule):
    """The cautions of a folder: of its network, and of its schedule where one is named."""
    network = folder / "net.toml"
    yield from name_cautions(folder)
    if network.is_file():
        yield from network_cautions(lines_of(network), "net.toml")
    for path in sorted(folder.glob("policy*.csv")):
        if path.is_file() and re.fullmatch(r"policy\d*\.csv", path.name):
            yield from first_ones(prefix_cautions(path, path.name))
    if schedule is not None:
        yield from later_policy_cautions(folder)
    if schedule is not None and (folder / schedule).is_file():
        yield from schedule_cautions(folder / schedule, schedule, network.is_file())


def played_cautions(text):
    """What a journal says of updates and its status doesn't: refused or unfinished ones."""
    row, waiting = "", ""
    for line in text.splitlines():
        if line.startswith("row "):
            row = line.partition(":")[0]
            waiting = "" if ": deliver " in line else waiting
        elif line.startswith("  submitted "):
            waiting = row
        elif line.startswith("  refused "):
            _, _, file, _, code = line.split()
            why = REFUSED.get(int(code), "its policy has no plan")
            yield f"{row}: the update to policy file {file} is refused, code {code}: {why}"
    if waiting:
        yield (f"{waiting}: there is no row flush after this update: its messages are never "
               "delivered, and the old version stays")
