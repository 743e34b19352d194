"""Whether a journal agrees with the files beside it; nothing is said of one that doesn't."""
import sys
from bisect import bisect_left
from collections import Counter

from .boxes import Ranked, point_of
from .packets import HEADER
from .places import EXAMPLES
from .records import lines_of, records_of
from .script import Mistake

PLAYED = {"drain": "hop", "flush": "deliver"}  # each of their steps is a line of this kind
FULL = 990_000  # messages that a play which stopped full has sent
INPUTS = ("net.toml", "schedule.csv", "policy*.csv")


def is_from(case):
    """What to ask whoever reads of a journal that its inputs contradict."""
    return f"is {case.journal.name} from an earlier run? desk/run {case.name} makes it again"


def newer_inputs(case):
    """The files beside a journal that are newer than it; git makes those of the examples."""
    if EXAMPLES in case.folder.resolve().parents:
        return []
    made = case.journal.stat().st_mtime_ns
    files = [path for form in INPUTS for path in sorted(case.folder.glob(form))]
    return [path.name for path in files if path.stat().st_mtime_ns > made]


def tell(case, file=sys.stderr):
    """Says in a line where an input is newer than the journal."""
    if names := newer_inputs(case):
        said = f"{' and '.join(names)} {'are' if names[1:] else 'is'} newer than"
        print(f"{said} {case.journal.name}: {is_from(case)}", file=file)


# ---- rows of the schedule


def schedule_of(case):
    """The rows of the schedule by their numbers, or None where it isn't beside its journal."""
    path = case.folder / "schedule.csv"
    if case.journal.name != "journal.txt" or not path.is_file():
        return None
    return {one.row: one.fields for one in records_of(lines_of(path)) if one.row}


def check_row(case, item):
    """That the schedule has the row of which the journal's line tells."""
    kind, *said = item.text.split(" ")[2:]
    there, *fields = case.schedule.get(item.row, ["none"])
    if there in PLAYED:
        agrees = kind == PLAYED[there]
    else:
        agrees = kind == there and plain(kind, said) == plain(kind, fields)
    if not agrees:
        raise item.mistake(f"row {item.row} of schedule.csv is {','.join([there, *fields])[:80]!r}, "
                           f"and here it is {item.text.partition(': ')[2]!r}; {is_from(case)}")


def plain(kind, fields):
    """The fields of a row, however they are spelled."""
    if kind.startswith("link"):
        return sorted(fields)
    try:
        header = dict(zip(HEADER, fields[1:], strict=True)) if kind == "packet" else None
        return (fields[0], point_of(header)) if header else fields
    except ValueError:
        return fields


def check_rows(case):
    """That the journal has each row of the schedule; a drain or a flush may have nothing to do."""
    for row, (kind, *_) in (case.schedule or {}).items() if case.sent < FULL else ():
        if kind not in PLAYED and row not in case.seen:
            raise Mistake(f"{case.journal.name} has no row {row}, and schedule.csv has: {kind}; "
                          f"{is_from(case)}")


def check_all(case, play):
    """That nothing is left over where the schedule has a drain or a flush."""
    packets, messages = play.packets.values(), play.network.messages.values()
    check_left(case, "drain", ((f"packet {one.number} travels", one.row, one.end_row)
                               for one in packets))
    check_left(case, "flush", ((f"message {one.number} waits", one.sent,
                                one.delivered or one.forgotten) for one in messages))


def check_left(case, kind, found):
    """That each that was found, with its first and last row, ended by the next row of this kind."""
    rows = [row for row, (event, *_) in case.schedule.items() if event == kind]
    for what, first, last in found:
        after = rows[bisect_left(rows, first):][:1]
        if after and not (last and last <= after[0]):
            raise Mistake(f"{what} after row {after[0]} of schedule.csv, a {kind}; {is_from(case)}")


# ---- meters, decisions, and the network


def check_meters(case, play):
    """That the last lines count the packets that left; a caution where there are none."""
    left = Counter(packet.port for packet in play.packets.values() if packet.end == "out")
    if play.meters and play.meters != left:
        raise Mistake(f"{case.journal}: the meters don't count the packets that left")
    if left and not play.meters:
        print(f"{case.journal} has no lines `meter` at its end: it is cut off, or was full",
              file=sys.stderr)


def check_decisions(case, play):
    """That each packet was decided by the first row of its version's policy that has its header."""
    ranked = {}
    for packet in play.packets.values():
        rows = case.policy(packet.version) if packet.decision else None
        if rows is None:
            continue
        number = packet.version.number
        ranked[number] = ranked.get(number) or Ranked(rows)
        rule = ranked[number].row_for(point_of(packet.header))
        wanted = (rule.priority, rule.fields[-1]) if rule else ("default", "drop")
        found = packet.decision["rule"], packet.decision["action"]
        if wanted != found:
            place = f" ({rule.file} line {rule.line})" if rule else ""
            raise Mistake(f"the policy of version {number} has {' '.join(wanted)}{place} for packet "
                          f"{packet.number}, and the journal {' '.join(found)}; {is_from(case)}")


def check_network(case, play):
    """That switches, links and ports are those of the network's file."""
    net = case.net()
    owners = {port: row["name"] for row in net["switch"] for port in row.get("ports", [])}
    links = {frozenset(link["ends"]) for link in net.get("link", [])}
    names = {row["name"] for row in net["switch"]}
    stood = {name for packet in play.packets.values() for name in packet.stood}
    strange = [f"a switch {name}" for name in {*play.network.switches} | stood if name not in names]
    for packet in play.packets.values():
        hops = zip(packet.stood, packet.stood[1:])
        strange += [f"a link {one} {other}" for one, other in hops if {one, other} not in links]
        if packet.end == "out" and owners.get(packet.port) != packet.at:
            strange.append(f"the port {packet.port} at {packet.at}")
    if strange:
        raise Mistake(f"the journal has {strange[0]}, which net.toml doesn't have; {is_from(case)}")


def check(case, play):
    """That the journal, as the play followed it to its end, agrees with the files beside it."""
    if (case.folder / "net.toml").is_file():
        check_network(case, play)
    check_meters(case, play)
    check_decisions(case, play)
    if case.schedule is not None and len(play.network.messages) < FULL:
        check_all(case, play)
