"""Who reaches whom: from each switch, the ports by which packets of a header leave."""
from collections import Counter

from . import fields
from .boxes import Ranked, box_of
from .cover import cover
from .dead import header_in
from .packets import HEADER
from .plans import SAYS
from .plays import Player
from .script import Mistake
from .story import header_text
from .table import table

MOST = 5000  # packets of one question


def answer(case, program, *words):
    """What becomes of a packet of each header from each switch, at first or after the schedule."""
    if fault := fields.first_fault(fields.OF_POLICY[1:], words[:5]):
        raise Mistake(fault)
    box, is_after = box_of(words[:5]), words[5:] == ("after",)
    names = [row["name"] for row in case.net()["switch"]]
    headers = headers_of(case, box, is_after)
    if len(names) * len(headers) > MOST:
        raise Mistake(f"{len(headers):,} rows decide such headers: from {len(names)} switches these "
                      f"are more than {MOST:,} packets, so name fewer headers")
    probes = [(name, header) for name in names for header in headers]
    packets = played(case, program, probes, is_after)
    ends = {name: Counter() for name in names}
    for (name, _), packet in zip(probes, packets, strict=True):
        ends[name][f"port {packet.port}" if packet.end == "out" else packet.end] += 1
    return {
        "after": is_after,
        "by": "program" if program else "model",
        "headers": headers,
        "from": {name: dict(counts) for name, counts in ends.items()},
        "packets": [
            {"switch": name, **header, "end": packet.end, "port": packet.port}
            for (name, header), packet in zip(probes, packets)
        ],
    }


def headers_of(case, box, is_after):
    """A header of the box for each row that decides some, of the versions by which switches work."""
    if is_after:
        versions = (network := case.play().network).versions
        stamps = {switch.stamp for switch in network.switches.values()} & {*versions}
        policies = [case.policy(versions[stamp]) for stamp in sorted(stamps or {max(versions)})]
    else:
        policies = [case.stated(1)]
    if None in policies:
        raise Mistake(f"{case.folder} lacks a policy of the network")
    found = [header for rules in policies for header in headers_in(Ranked(rules), box)]
    return [dict(one) for one in dict.fromkeys(tuple(header.items()) for header in found)]


def headers_in(ranked, box):
    """A header of the box for each row of a policy that decides some, and one for the default."""
    everything, rows = ranked.meeting(box, (1 << len(ranked.boxes)) - 1), 0
    for at, own in enumerate(ranked.boxes):
        if everything >> at & 1:
            part = tuple((max(one[0], two[0]), min(one[1], two[1])) for one, two in zip(box, own))
            free, _ = cover(ranked, part, rows)
            rows |= 1 << at
            if free:
                yield header_in(free)
    free, _ = cover(ranked, box, rows)
    if free:
        yield header_in(free)


def played(case, program, probes, is_after):
    """The packets of these probes, each drained."""
    rows = [row for name, header in probes
            for row in (["packet", name, *(header[field] for field in HEADER)], ["drain"])]
    player = Player(str(case.folder), program)
    rows = (player.own_rows() if is_after else []) + rows
    player.check(rows)
    packets = list(player.case(rows).play().packets.values())
    return packets[len(packets) - len(probes) :]


def text(found):
    """The headers, and the matrix: switches by ports and other ends, with counts of packets."""
    where = "after the schedule" if found["after"] else "as the network begins"
    count, by = len(found["headers"]), SAYS[found["by"]]
    yield f"headers: {count}, one for each row that decides some; {where}, {by}"
    if len(found["headers"]) == 1:
        yield header_text(found["headers"][0])
    ends = {end for counts in found["from"].values() for end in counts}
    ports = sorted((end for end in ends if end.startswith("port ")), key=lambda end: int(end[5:]))
    columns = ports + sorted(ends - {*ports})
    rows = [
        (name, *(counts.get(end, 0) for end in columns)) for name, counts in found["from"].items()
    ]
    yield from table(["from", *columns], rows)
