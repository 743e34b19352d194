"""What becomes of the same traffic in two journals."""
from collections import Counter

from .folder import case_of
from .script import Mistake
from .story import header_text
from .table import plural, table


def answer(case, name):
    """The packets whose outcomes differ, and how many have the same outcome by another row."""
    one, two = case.play().packets, case_of(name).play().packets
    if len(one) != len(two):
        raise Mistake(f"the traffic isn't the same: {plural(len(one), 'packet')} and {len(two)}")
    pairs = [(one[number], two.get(number)) for number in one]
    for left, right in pairs:
        if right is None or (left.ingress, left.header) != (right.ingress, right.header):
            raise Mistake(f"the traffic isn't the same: packet {left.number} is another one")
    differ = [pair for pair in pairs if outcome_of(pair[0]) != outcome_of(pair[1])]
    same = [pair for pair in pairs if outcome_of(pair[0]) == outcome_of(pair[1])]
    rows = Counter((row_of(left), row_of(right)) for left, right in same)
    return {
        "packets": len(one),
        "same outcome": len(same),
        "by another row": sum(count for (here, there), count in rows.items() if here != there),
        "changes": counts(Counter((outcome_of(left), outcome_of(right)) for left, right in differ)),
        "differ": [difference_of(*pair) for pair in differ],
        "other rows": counts({key: n for key, n in rows.items() if key[0] != key[1]}),
    }


def counts(found):
    """Pairs of texts with their counts, the greatest first."""
    return [
        {"here": here, "there": there, "packets": count}
        for (here, there), count in Counter(found).most_common()
    ]


def difference_of(left, right):
    """A packet whose outcomes differ, with the rows that decided it."""
    return {
        "packet": left.number,
        "switch": left.ingress,
        "here": outcome_of(left),
        "rule here": row_of(left),
        "there": outcome_of(right),
        "rule there": row_of(right),
        "header": left.header,
    }


def row_of(packet):
    """The row that decided a packet; `-` where none did."""
    return packet.decision["rule"] if packet.decision else "-"


def outcome_of(packet):
    """What became of a packet: its action, and its end where that is neither out nor dropped."""
    action = packet.decision["action"] if packet.decision else "undecided"
    return action if packet.end in ("out", "dropped") else f"{action}, {packet.end}"


def text(found):
    """The changed outcomes first, with headers."""
    yield f"different outcome: {len(found['differ'])} of {plural(found['packets'], 'packet')}"
    if found["changes"]:
        rows = [(one["packets"], one["here"], one["there"]) for one in found["changes"]]
        yield from table(["packets", "here", "there"], rows)
        yield ""
        rows = [[*one.values()][:-1] + [header_text(one["header"])] for one in found["differ"]]
        heading = ["packet", "switch", "here", "rule", "there", "rule", "header"]
        yield from table(heading, rows)
        yield ""
    others = found["by another row"]
    yield f"same outcome: {found['same outcome']}, {others} of them decided by another row"
