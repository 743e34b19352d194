"""The lines of links in a drawing: straight, or bent around the switches between."""
from heapq import heappop, heappush
from itertools import chain, pairwise
from math import dist, hypot

HALF_HIGH, TEXT = 24, 18  # of a box, and the room of the text below it
LETTERS = {**dict.fromkeys("mwMW", 8.3), **dict.fromkeys("fijlrtIJ-", 4)}  # half their widths
CAPITAL, LETTER = 6.4, 5.4  # half the widths of all others
CLEAR = 9  # from a box to the lines of other switches, at least; an arrow has room beside them
PADS = (14, 18, 22, 26)  # from a box to the corners of lines that bend around it, one after another
ASIDE = 7  # from a line to an arrow along it, so that the two directions are apart


def half_wide(names):
    """Half the width of a box, in which the widest name has room."""
    wide = (sum(LETTERS.get(one, CAPITAL if one.isupper() else LETTER) for one in name)
            for name in names)
    return round(max(54, 8 + max(wide)))


def box_of(point, half, pad=CLEAR):
    """A switch's box with the text below it, and some room around: left, top, right, foot."""
    x, y = point
    return x - half - pad, y - HALF_HIGH - pad, x + half + pad, y + HALF_HIGH + TEXT + pad


def meets(one, two, box):
    """Whether a straight line meets the inside of a box."""
    (a, b), (c, d) = one, two
    if max(a, c) <= box[0] or min(a, c) >= box[2] or max(b, d) <= box[1] or min(b, d) >= box[3]:
        return False
    low, high = 0, 1
    for start, run, least, most in ((a, c - a, box[0], box[2]), (b, d - b, box[1], box[3])):
        if run:
            near, far = sorted(((least - start) / run, (most - start) / run))
            low, high = max(low, near), min(high, far)
    return low < high


def is_met(box, points):
    """Whether a line of several legs meets the inside of a box."""
    return any(meets(*leg, box) for leg in pairwise(points))


def corners(box, pad):
    """The points around a box where a line may bend, by their room beside the box without any."""
    left, top, right, foot = box[0] - pad, box[1] - pad, box[2] + pad, box[3] + pad
    return [(left, top), (right, top), (left, foot), (right, foot)]


def shortest(one, two, points, boxes):
    """The shortest line from one point to another over some of these, clear of the boxes."""
    fringe, seen = [(0, [one])], set()
    while fringe:
        long, way = heappop(fringe)
        here = way[-1]
        if here == two:
            return way
        if here not in seen:
            seen.add(here)
            for there in (*points, two):
                if there not in seen and not any(meets(here, there, box) for box in boxes):
                    heappush(fringe, (long + dist(here, there), [*way, there]))
    return [one, two]


def around(one, two, boxes, pad):
    """The shortest line that is clear of all boxes: it bends around those that it would meet."""
    met, way = [], [one, two]
    while fresh := [box for box in boxes if box not in met and is_met(box, way)]:
        met += fresh
        points = chain.from_iterable(corners(box, pad - CLEAR) for box in met)
        way = shortest(one, two, list(points), met)
    return way


def lines_of(at, links):
    """The points of each link's line, by its ends in their order."""
    half, found, bent = half_wide(at), {}, 0
    boxes = {name: box_of(point, half) for name, point in at.items()}
    for one, two in links:
        others = [box for name, box in boxes.items() if name not in (one, two)]
        found[one, two] = around(at[one], at[two], others, PADS[bent % len(PADS)])
        bent += len(found[one, two]) > 2
    return found


# Along a line.


def normal(one, two):
    """The direction to the right of a leg."""
    (a, b), (c, d) = one, two
    long = hypot(c - a, d - b) or 1
    return (b - d) / long, (c - a) / long


def beside(points, far=ASIDE):
    """The line so far to the right of this one."""
    sides = [normal(*leg) for leg in pairwise(points)]
    for (x, y), (a, b), (c, d) in zip(points, sides[:1] + sides, sides + sides[-1:]):
        share = far / max(0.4, 1 + a * c + b * d)
        yield x + (a + c) * share, y + (b + d) * share


def clipped(points, half):
    """The line with its end short of the box where it ends, and of the text below that."""
    *before, (a, b), (c, d) = points
    x, y = c - a, d - b
    high = HALF_HIGH + (TEXT if y < 0 else 0)
    share = min(half / (abs(x) or 1), high / (abs(y) or 1), 0.9)
    return [*before, (a, b), (c - x * share, d - y * share)]


def arrow_of(points, half):
    """The points of an arrow that goes along a line, right of it."""
    return clipped(list(beside(points)), half)


def spot(points, share):
    """The point after this share of a line."""
    left = share * sum(dist(*leg) for leg in pairwise(points))
    for (a, b), (c, d) in pairwise(points):
        long = dist((a, b), (c, d))
        if left <= long:
            return a + (c - a) * left / (long or 1), b + (d - b) * left / (long or 1)
        left -= long
    return points[-1]


def bowed(one, two, bend, legs=16):
    """A curve from one point to another, as a line of short legs; `bend` is its height by length."""
    (a, b), (c, d) = one, two
    e, f = (a + c) / 2 + (d - b) * bend, (b + d) / 2 - (c - a) * bend
    for k in range(legs + 1):
        near = ((1 - k / legs) ** 2, 2 * k / legs * (1 - k / legs), (k / legs) ** 2)
        yield tuple(sum(n * v for n, v in zip(near, line)) for line in ((a, e, c), (b, f, d)))


def apart(point, one, two):
    """How far a point is from a leg."""
    (x, y), (a, b), (c, d) = point, one, two
    long = (c - a) ** 2 + (d - b) ** 2 or 1
    share = min(1, max(0, ((x - a) * (c - a) + (y - b) * (d - b)) / long))
    return dist(point, (a + share * (c - a), b + share * (d - b)))
