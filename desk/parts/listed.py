"""The packets of a journal, by filters."""
import csv
import io
import re

from .packets import ENDS, HEADER
from .script import Mistake
from .story import header_text
from .table import plural, table

FILTERS = {
    "version": "[0-9]{1,2}",
    "rule": "[0-9]{1,10}|default",
    "switch": ".+",
    "end": "|".join(ENDS),
    "by": "authority|cache",
    "from": "[0-9]{1,6}",
    "to": "[0-9]{1,6}",
}


def answer(case, *words):
    """The packets that pass each filter: words in pairs, as `version 1 from 4`."""
    wanted, play = filters_of(words), case.play()
    name = wanted.get("switch")
    if name is not None and name not in play.network.switches:
        raise Mistake(f"there is no switch {name!r}: there are {', '.join(play.network.switches)}")
    rows = [row_of(packet) for packet in play.packets.values()]
    return {"packets": len(rows), "filters": wanted, "found": [r for r in rows if fits(r, wanted)]}


def filters_of(words):
    """The filters by their names."""
    wanted = {}
    for at in range(0, len(words), 2):
        name, value = words[at], words[at + 1 : at + 2]
        if name not in FILTERS:
            raise Mistake(f"packets are filtered by {', '.join(FILTERS)}, and not by {name[:40]!r}")
        if name in wanted:
            raise Mistake(f"the filter {name} is given twice")
        if not value or not re.fullmatch(FILTERS[name], value[0], re.ASCII):
            form = FILTERS[name].replace("|", ", ") if "|" in FILTERS[name] else "its value"
            form = form.replace("[0-9]{1,10}", "a number")
            raise Mistake(f"the filter {name} takes {form}")
        wanted[name] = value[0]
    return wanted


def row_of(packet):
    """A packet in plain values; `decided` is the row of the schedule by which it was."""
    said = packet.decision or dict.fromkeys(("version", "rule", "action", "by", "row"))
    return {
        "packet": packet.number,
        "came": packet.row,
        "switch": packet.ingress,
        **packet.header,
        **{name: said[name] for name in ("version", "rule", "action", "by")},
        "decided": said["row"],
        "end": packet.end,
        "ended": packet.end_row,
    }


def fits(row, wanted):
    """Whether the packet passes; its time is that of its decision, or of its coming without one."""
    at = row["decided"] or row["came"]
    is_in_time = int(wanted.get("from", 0)) <= at <= int(wanted.get("to", at))
    same = (name for name in wanted if name not in ("from", "to"))
    return is_in_time and all(str(row[name]) == wanted[name] for name in same)


def text(found):
    names = ["packet", "came", "switch", "version", "rule", "action", "by", "decided", "end"]
    yield f"{len(found['found'])} of {plural(found['packets'], 'packet')}"
    if found["found"]:
        rows = [
            [*("-" if one[name] is None else one[name] for name in names), header_text(one)]
            for one in found["found"]
        ]
        yield from table([*names, "header"], rows)


def csv_lines(found):
    """A line for each packet, after a heading."""
    columns = ["packet", "came", "switch", *HEADER, "version", "rule", "action", "by", "decided",
               "end", "ended"]
    out = io.StringIO()
    writer = csv.DictWriter(out, columns, lineterminator="\n")
    writer.writeheader()
    writer.writerows(found["found"])
    yield out.getvalue().removesuffix("\n")
