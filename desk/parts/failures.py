"""What fails, the rows that let it fail before a schedule, and what becomes of the packets."""
from collections import Counter
from itertools import combinations
from typing import NamedTuple

from .packets import TRAVELLING
from .script import Mistake

GOOD = ("out", "dropped")
WORSE = ["closed", "lost", "stuck", TRAVELLING]
MOST_PLAYS = 5000
MENDS = {"linkup": "linkdown", "restart": "crash"}
BY_NUMBER = ("deliver", "forget")


class Failure(NamedTuple):
    """One or more rows, each the failure of a link or the crash of a switch."""

    rows: tuple

    def name(self):
        return " and ".join(named(row) for row in self.rows)

    def words(self):
        """Its rows, as --rows takes them."""
        return " ".join(",".join(row) for row in self.rows)

    def first_rows(self):
        """The rows that come first: what fails, that the controller knows, and that switches tell."""
        crashed = [row[1] for row in self.rows if row[0] == "crash"]
        confirmed = [["confirm", switch] for switch in crashed]
        return [*map(list, self.rows), *confirmed, ["flush"]]

    def schedule(self, rows, sent):
        """The rows after its own; messages have higher numbers by those that it sent."""
        own = {(row[0], frozenset(row[1:])) for row in self.rows}
        left = (row for row in rows if (MENDS.get(row[0]), frozenset(row[1:])) not in own)
        return self.first_rows() + [moved(row, sent) for row in left]


def named(row):
    return f"switch {row[1]}" if row[0] == "crash" else f"link {row[1]} {row[2]}"


def moved(row, sent):
    """A row that names a message names the one that was so many numbers before."""
    is_one = row[0] in BY_NUMBER and int(row[1]) > 0
    return [row[0], str(int(row[1]) + sent)] if is_one else row


def single_failures(net):
    """Each switch and each link of a network."""
    yield from (Failure((("crash", switch["name"]),)) for switch in net["switch"])
    yield from (Failure((("linkdown", *link["ends"]),)) for link in net.get("link", []))


def failures_of(net, pairs):
    """What fails in turn: each switch and each link, or each two of them."""
    found = list(single_failures(net))
    if pairs:
        found = [Failure(one.rows + two.rows) for one, two in combinations(found, 2)]
    if len(found) > MOST_PLAYS:
        raise Mistake(f"the network has {len(found):,} pairs, and {MOST_PLAYS:,} are the most")
    return found


def failure_in(words, net):
    """The failure of these rows, each of a switch or a link of the network."""
    rows = [tuple(word.split(",")) for word in words]
    known = {one.rows[0][:1] + (frozenset(one.rows[0][1:]),) for one in single_failures(net)}
    for word, row in zip(words, rows):
        if (row[0], frozenset(row[1:])) not in known:
            raise Mistake(f"{word!r} fails nothing here: give crash,SWITCH or linkdown,S,T")
    if not rows or len(set(rows)) < len(rows):
        raise Mistake("--rows takes one or more rows, each once: crash,S or linkdown,S,T")
    return Failure(tuple(rows))


# What becomes of the packets.


def fate(packet):
    """How a packet ended, in words."""
    if packet.end == "out":
        return f"out by port {packet.port}"
    if packet.end in ("stuck", "lost"):
        return f"{packet.end} at {packet.at}" + f": {packet.cause}" * (packet.end == "stuck")
    return f"{packet.end} at {packet.at}" if packet.end == "closed" else packet.end


def fares_otherwise(packet, there):
    """Whether a packet ends otherwise; one that doesn't leave in either is no news."""
    return fate(packet) != fate(there) and not {packet.end, there.end} <= {*WORSE}


def changed(before, after):
    """The packets that fare otherwise: their numbers by their outcomes before and after."""
    found = {}
    for number, packet in before.items():
        if fares_otherwise(packet, after[number]):
            found.setdefault((fate(packet), fate(after[number])), []).append(number)
    return sorted(found.items(), key=lambda one: (-len(one[1]), one[1]))


def outcome(failure, before, after):
    """How many packets fare worse, and how; how many otherwise, or the same by more hops."""
    worse, otherwise, longer = Counter(), 0, 0
    for number, packet in before.items():
        there = after[number]
        if packet.end in GOOD and there.end in WORSE:
            worse[there.end] += 1
        elif fares_otherwise(packet, there):
            otherwise += 1
        elif packet.end in GOOD:
            longer += len(there.stood) > len(packet.stood)
    return {
        "failed": failure.name(),
        "rows": failure.words(),
        **{end: worse[end] for end in WORSE},
        "otherwise": otherwise,
        "longer": longer,
        "changes": [
            {"before": was, "after": then, "packets": numbers}
            for (was, then), numbers in changed(before, after)
        ],
    }


def badness(found):
    """What comes first: most packets worse off, then most otherwise, then most by more hops."""
    return -sum(found[end] for end in WORSE), -found["otherwise"], -found["longer"]
