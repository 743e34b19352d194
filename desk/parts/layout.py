"""Where the switches of a network are placed in a drawing."""
from itertools import combinations
from math import atan2, cos, hypot, pi, sin

from .lines import box_of, half_wide, meets

ROUNDS = 40  # of moving the switches; further ones change nothing that one sees
TURNS = 24  # the angles that are tried, and so many more by which a link lies level
WIDE, HIGH = 170, 130  # the least room of a switch with its texts
BESIDE = 40  # at least between two boxes
FEW = 5  # of the smallest drawings, of which the clearest is taken
THROUGH = 3  # so many crossings are as bad as a link that must bend around a switch
ROW = 1.2  # from one row of switches to the next, where two neighbours are 1 apart


def neighbours_of(names, links):
    near = {name: set() for name in names}
    for one, other in links:
        near[one].add(other)
        near[other].add(one)
    return near


def steps_from(start, near):
    """How many links each switch that can be reached is away from the start, at least."""
    steps, fringe = dict.fromkeys(start, 0), list(start)
    for name in fringe:
        fresh = sorted(near[name] - steps.keys())
        steps.update(dict.fromkeys(fresh, steps[name] + 1))
        fringe += fresh
    return steps


def distances(names, near):
    """The links from each switch to each other one; those apart are as far as any, and one more."""
    steps = {name: steps_from([name], near) for name in names}
    most = max(max(found.values()) for found in steps.values()) + 1
    return {name: {other: steps[name].get(other, most) for other in names} for name in names}


def axis(matrix, other):
    """The direction in which a symmetric matrix stretches most, at right angles to the other."""
    vector = [1 + k * k % 7 + 3 * (along > 0) for k, along in enumerate(other)]
    for _ in range(ROUNDS):
        vector = [sum(a * b for a, b in zip(row, vector)) for row in matrix]
        along = sum(a * b for a, b in zip(vector, other))
        vector = [a - along * b for a, b in zip(vector, other)]
        long = hypot(*vector) or 1
        vector = [a / long for a in vector]
    return vector


def scaling(names, far):
    """First points by classical scaling: a square comes out as one."""
    count = len(names)
    squares = [[far[one][other] ** 2 for other in names] for one in names]
    means = [sum(row) / count for row in squares]
    mean = sum(means) / count
    matrix = [
        [(means[i] + means[k] - mean - squares[i][k]) / 2 for k in range(count)]
        for i in range(count)
    ]
    first = axis(matrix, [0] * count)
    return dict(zip(names, zip(first, axis(matrix, first))))


def spread(names, near):
    """Points whose distances are like those of the network: a ring becomes a circle."""
    far = distances(names, near)
    points = scaling(names, far)
    for _ in range(ROUNDS):
        for name in names:
            points[name] = pulled(name, points, far[name])
    for _ in range(ROUNDS):
        for one, other in combinations(names, 2):
            push(one, other, points)
    return points


def push(one, other, points):
    """Moves two switches as far apart as two that are linked, if they are closer."""
    (a, b), (c, d) = points[one], points[other]
    apart = hypot(c - a, d - b)
    if apart < 1:
        x, y = ((c - a) / apart, (d - b) / apart) if apart else (1, 0)
        step = (1 - apart) / 2
        points[one], points[other] = (a - x * step, b - y * step), (c + x * step, d + y * step)


def pulled(name, points, far):
    """Where the other switches want this one, each as far away as it is by links."""
    x, y = points[name]
    total = left = right = 0
    for other, (a, b) in points.items():
        if other != name:
            wanted, apart = far[other], hypot(x - a, y - b) or 1e-6
            weight = wanted**-2
            total += weight
            left += weight * (a + wanted * (x - a) / apart)
            right += weight * (b + wanted * (y - b) / apart)
    return (left / total, right / total) if total else (x, y)


def turned(points, angle):
    return {
        name: (x * cos(angle) - y * sin(angle), x * sin(angle) + y * cos(angle))
        for name, (x, y) in points.items()
    }


def angles(points, links):
    """The angles that are tried: all around, and those by which one of the first links lies level."""
    yield from (2 * pi * k / TURNS for k in range(TURNS))
    for one, other in links[:TURNS]:
        (a, b), (c, d) = points[one], points[other]
        yield -atan2(d - b, c - a)


def facing(points):
    """The points mirrored so that of a network's switches the first ones are left and above."""
    sides = []
    for k in (0, 1):
        values = [point[k] for point in points.values()]
        middle = sum(values) / len(values)
        lean = sum(number * (value - middle) for number, value in enumerate(values))
        sides.append(1 if lean >= 0 else -1)
    return {name: (x * sides[0], y * sides[1]) for name, (x, y) in points.items()}


def in_rows(names, near, ports):
    """Points in rows: switches with ports at the foot, others by how far they are from those."""
    steps = steps_from([name for name in names if name in ports], near)
    top = max(steps.values(), default=0)
    rows = [[name for name in names if steps.get(name, top) == k] for k in range(top + 1)]
    most = max(map(len, rows))
    return {
        name: ((place - (len(row) - 1) / 2) * most / len(row), -ROW * k)
        for k, row in enumerate(rows)
        for place, name in enumerate(row)
    }


def crosses(one, other, points):
    """Whether the lines of two links without a common end cross."""
    (a, b), (c, d) = one, other
    if len({a, b, c, d}) < 4:
        return False

    def side(p, q, r):
        (x, y), (u, v), (s, t) = points[p], points[q], points[r]
        return (u - x) * (t - y) - (v - y) * (s - x) > 0

    return side(a, b, c) != side(a, b, d) and side(c, d, a) != side(c, d, b)


def scaled(points, wide):
    """The points in pixels, so far apart that no two switches meet, and the drawing's size."""
    pairs = combinations(points.values(), 2)
    gaps = [max(abs(a - c) / wide, abs(b - d) / HIGH) for (a, b), (c, d) in pairs]
    scale = 1 / max(min(gaps, default=1), 1e-3)
    left, low = (min(point[k] for point in points.values()) for k in (0, 1))
    at = {
        name: (round((x - left) * scale + wide / 2), round((y - low) * scale + HIGH / 2))
        for name, (x, y) in points.items()
    }
    right, foot = (max(point[k] for point in at.values()) for k in (0, 1))
    return at, (right + round(wide / 2), foot + HIGH // 2)


def area(drawing):
    """The size of a drawing; one that is higher than wide counts as a square."""
    _, (right, foot) = drawing
    return max(right, foot) * foot


def bends(at, links):
    """How many switches links would run through."""
    half = half_wide(at)
    boxes = [(name, box_of(point, half)) for name, point in at.items()]
    return sum(
        meets(at[link[0]], at[link[1]], box) for link in links for name, box in boxes
        if name not in link
    )


def cost(drawing, links, crossed=0):
    """How large a drawing is, and how hard to read: by links that cross, or that must bend."""
    return area(drawing) * (1 + (crossed + THROUGH * bends(drawing[0], links)) / (len(links) or 1))


def whole_cost(drawing, links):
    """The same, where links may cross in different numbers."""
    crossed = sum(crosses(one, two, drawing[0]) for one, two in combinations(links, 2))
    return cost(drawing, links, crossed)


def placed(names, links, ports):
    """The middle of each switch, and the drawing's size: of two layouts the one that is clearer."""
    near, wide = neighbours_of(names, links), max(WIDE, BESIDE + 2 * half_wide(names))
    free = spread(names, near)
    turns = (scaled(facing(turned(free, angle)), wide) for angle in angles(free, links))
    rows = scaled(in_rows(names, near, ports or names), wide)
    best = min(sorted(turns, key=area)[:FEW], key=lambda drawing: cost(drawing, links))
    return min(best, rows, key=lambda drawing: whole_cost(drawing, links))
