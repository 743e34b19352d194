"""The rows of a policy as boxes over the five fields of headers: which of them meet or hold a box.

A set of rows is a number, in which the bit of a row's place is 1.
"""
from bisect import bisect_left, bisect_right
from functools import lru_cache
from itertools import accumulate
from operator import or_

from . import places  # it puts the model on the path
from .script import Mistake

import plan_model

KEPT = 4096  # answers of a field, for ends that come again
LASTS = (2**32 - 1, 2**32 - 1, 2**16 - 1, 2**16 - 1, 2**8 - 1)
WHOLE = tuple((0, last) for last in LASTS)


def block(value, mask, last):
    """The first and the last of the values that have these bits."""
    return value & mask, value & mask | last ^ mask


def ports(text):
    low, _, high = "0-65535".partition("-") if text == "any" else text.partition("-")
    return int(low), int(high or low)


def protocol(text):
    """The value and the mask of a protocol."""
    return plan_model.PROTOCOLS.get(text) or (int(text), LASTS[-1])


def box_of(texts):
    """Five fields as policies have them, each as its first and its last value."""
    src, dst, sport, dport, proto = texts
    ends = [block(*plan_model.address(text), LASTS[0]) for text in (src, dst)]
    return *ends, ports(sport), ports(dport), block(*protocol(proto), LASTS[-1])


def point_of(header):
    """A packet's header as five numbers."""
    addresses = (plan_model.address(header[name])[0] for name in ("src", "dst"))
    return *addresses, int(header["sport"]), int(header["dport"]), protocol(header["proto"])[0]


class Side:
    """The boxes in one field: which begin up to a value, and which end before it."""

    def __init__(self, ends):
        self.lows, self.begun = self.sums(low for low, _ in ends)
        self.highs, self.ended = self.sums(high for _, high in ends)
        self.meeting, self.holding = map(lru_cache(KEPT), (self.find_meeting, self.find_holding))

    def sums(self, values):
        """The values by size, and for each place the set of the boxes of those before it."""
        rising = sorted((value, at) for at, value in enumerate(values))
        bits = [0, *(1 << at for _, at in rising)]
        return [value for value, _ in rising], list(accumulate(bits, or_))

    def find_meeting(self, ends):
        """The boxes that have one of these values or more."""
        begun = self.begun[bisect_right(self.lows, ends[1])]
        return begun & ~self.ended[bisect_left(self.highs, ends[0])]

    def find_holding(self, ends):
        """The boxes that have all of these values."""
        begun = self.begun[bisect_right(self.lows, ends[0])]
        return begun & ~self.ended[bisect_left(self.highs, ends[1])]


class Boxes:
    """The boxes of rows, the first row first."""

    def __init__(self, boxes):
        self.boxes = boxes
        self.sides = [Side([box[k] for box in boxes]) for k in range(len(LASTS))]

    def meeting(self, box, rows):
        """Those of the rows that have a header of the box."""
        for side, ends in zip(self.sides, box):
            rows &= side.meeting(ends)
        return rows

    def holding(self, box, rows):
        """Of these rows those that have all values of the box, in as many fields as one can."""
        held = [side.holding(ends) & rows for side, ends in zip(self.sides, box)]
        if whole := held[0] & held[1] & held[2] & held[3] & held[4]:
            return whole, True
        counts = [rows, 0, 0, 0, 0]
        for at, some in enumerate(held):
            for count in range(min(at, 3), -1, -1):
                counts[count + 1] |= counts[count] & some
        return next(found for found in reversed(counts) if found), False

    def first(self, point):
        """The place of the first row that has this header, or None."""
        rows = (1 << len(self.boxes)) - 1
        return lowest(self.meeting([(value, value) for value in point], rows))


def lowest(rows):
    """The first place in a set of rows, or None where it is empty."""
    return (rows & -rows).bit_length() - 1 if rows else None


def places(rows):
    """The places in a set of rows, in order."""
    while rows:
        yield lowest(rows)
        rows &= rows - 1


class Ranked(Boxes):
    """The rows of a policy, of which the first that has a header decides it: by falling priority."""

    def __init__(self, rules):
        self.rules = sorted(rules, key=lambda rule: -int(rule.priority))
        for one, other in zip(self.rules, self.rules[1:]):
            if one.priority == other.priority:
                raise Mistake(f"{other.file} line {other.line}: the priority {one.priority} is that "
                              f"of {one.file} line {one.line} too")
        super().__init__([box_of(rule.fields[1:6]) for rule in self.rules])

    def row_for(self, point):
        """The row that decides this header, or None where the default does."""
        at = self.first(point)
        return None if at is None else self.rules[at]
