"""A drawn network, and the shapes that desk/draw puts on it."""
import html
from itertools import pairwise

from .layout import placed
from .lines import (
    HALF_HIGH, TEXT, apart, around, arrow_of, bowed, box_of, clipped, half_wide, is_met, lines_of,
    spot,
)

LEFT, TOP = 30, 44  # of the network, for the key and for arrows of packets that enter
WIDER, HIGHER = 1.4, 1.15  # than a page's drawing, for numbers and arrows
BESIDE, SLANT = 56, 34  # from a box to the end of an arrow to its side, or to its corner
ROOM = 30  # around such an end nothing more is won
BENDS = (0.25, -0.25, 0.45, -0.45, 0.7, -0.7)  # of the curves of messages, tried in turn
ROUND = 24  # around a curve, for its numbers
INK, LINK, BAD = "#333", "#999", "#b01030"
HALO = 'paint-order="stroke" stroke="#fff" stroke-width="4"'
LEFTMOST = [(-1, 0), (-1, 1), (1, -1), (1, 0), (1, 1), (-1, -1)]
RIGHTMOST = [(1, 0), (1, 1), (1, -1), (-1, 0), (-1, 1), (-1, -1)]


class Picture:
    """The shapes of a picture in the order in which they are painted; numbers come last."""

    def __init__(self, net):
        self.net, self.parts, self.numbers = net, [], []
        self.above, self.along, self.said, self.taken = {}, {}, {}, set()
        self.links = [tuple(link["ends"]) for link in net.get("link", [])]
        ports = {switch["name"] for switch in net["switch"] if switch.get("ports")}
        names = [switch["name"] for switch in net["switch"]]
        at, (width, height) = placed(names, self.links, ports)
        self.at = {name: (x * WIDER + LEFT, y * HIGHER + TOP) for name, (x, y) in at.items()}
        self.width, self.height = max(580, width * WIDER + 2 * LEFT), height * HIGHER + TOP
        self.half, self.lines = half_wide(names), lines_of(self.at, self.links)

    def joins(self, one, two):
        return (one, two) in self.lines or (two, one) in self.lines

    def way(self, one, two):
        """The points of the link from one switch to another."""
        return self.lines.get((one, two)) or self.lines[two, one][::-1]

    def line(self, points, style):
        text = " ".join(f"{x:.0f},{y:.0f}" for x, y in points)
        self.parts.append(f'<polyline points="{text}" fill="none" {style}/>')

    def text(self, x, y, text, style=""):
        text = html.escape(text)
        self.parts.append(f'<text x="{x:.0f}" y="{y:.0f}" {style}>{text}</text>')

    def number(self, x, y, number, colour):
        self.parts.append(f'<circle cx="{x:.0f}" cy="{y:.0f}" r="10" fill="{colour}"/>')
        self.text(x, y + 4, str(number), 'text-anchor="middle" fill="#fff" font-size="12"')

    def later(self, point, number, colour):
        """A number that is painted over all lines and switches."""
        self.numbers.append((*point, number, colour))

    def number_at(self, switch, number, colour):
        """A number above the switch, right of those that are there."""
        (x, y), k = self.at[switch], self.above.get(switch, 0)
        self.above[switch] = k + 1
        self.later((x - self.half + 10 + 22 * k, y - HALF_HIGH - 13), number, colour)

    def draw_links(self, down):
        """Each link; one that is down, or was found so, is dashed and crossed out."""
        for ends, points in self.lines.items():
            name = f'class="link" data-ends="{" ".join(ends)}"'
            if frozenset(ends) in down:
                self.said["✕ down"] = BAD
                self.line(points, f'{name} stroke="{BAD}" stroke-dasharray="3 5"')
                style = f'text-anchor="middle" font-size="13" fill="{BAD}" font-weight="bold"'
                x, y = spot(points, 0.5)
                self.text(x, y + 5, "✕ down", f"{style} {HALO}")
            else:
                self.line(points, f'{name} stroke="{LINK}"')

    def draw_switches(self, phases):
        """Each switch; one that doesn't serve is dashed and grey, and says so."""
        for switch in self.net["switch"]:
            (x, y), name = self.at[switch["name"]], switch["name"]
            fill = "#fff3c4" if switch.get("authority") else "#fff"
            look = f'fill="{fill}" stroke="{INK}"'
            if name in phases:
                self.said[f"✕ {phases[name]}"] = BAD
                look = f'fill="#e4e4e4" stroke="{BAD}" stroke-width="2" stroke-dasharray="5 4"'
            self.parts.append(
                f'<rect data-switch="{name}" x="{x - self.half:.0f}" y="{y - HALF_HIGH:.0f}" '
                f'width="{2 * self.half:.0f}" height="{2 * HALF_HIGH}" rx="6" {look}/>'
            )
            self.text(x, y + 5, name, 'text-anchor="middle" font-size="15"')
            colour = BAD if name in phases else "#555"
            style = f'text-anchor="middle" font-size="11" fill="{colour}" {HALO}'
            if told := told_of(switch, phases):
                self.text(x, y + HALF_HIGH + TEXT - 4, ", ".join(told), style)

    def band(self, one, two, colour):
        """Shades the link that a hop takes."""
        look = f'stroke="{colour}" stroke-opacity="0.25" stroke-width="14"'
        self.line(self.way(one, two), f'class="hop" data-ends="{one} {two}" {look}')

    def plan(self, one, two, colour):
        """Dots a link that a packet's route has, and that it doesn't take."""
        self.said["dotted: not taken"] = INK
        look = f'stroke="{colour}" stroke-width="4" stroke-dasharray="1 7" stroke-linecap="round"'
        self.line(self.way(one, two), look)

    def hop(self, one, two, number, colour):
        """An arrow right of its link; further ones in this direction have numbers of their own."""
        points = arrow_of(self.way(one, two), self.half)
        self.arrow(points, colour, f'class="hop" data-ends="{one} {two}"')
        k = self.along[one, two] = self.along.get((one, two), -1) + 1
        self.later(spot(points, min(0.95, 0.4 + 0.13 * k)), number, colour)

    def arrow(self, points, colour, more=""):
        head = f'stroke="{colour}" stroke-width="3" marker-end="url(#{colour[1:]})"'
        self.line(points, f"{more} {head}".strip())

    def come_in(self, switch, number, colour):
        """An arrow to a switch from outside."""
        end = self.outside(switch, LEFTMOST)
        self.arrow(clipped([end, self.at[switch]], self.half), colour)
        self.later(end, number, colour)

    def go_out(self, switch, number, colour):
        """An arrow that leaves a switch to the outside."""
        points = [self.at[switch], self.outside(switch, RIGHTMOST)]
        self.arrow(points, colour)
        self.later(spot(clipped(points[::-1], self.half), 0.6), number, colour)

    def outside(self, switch, sides):
        """A point beside a switch, by one of these sides, with as much room as there is."""
        x, y = self.at[switch]
        points = [
            (x + a * (self.half + (SLANT if b else BESIDE)), y + b * (HALF_HIGH + SLANT))
            for a, b in sides
        ]
        best = max((point for point in points if point not in self.taken), key=self.room)
        self.taken.add(best)
        return best

    def room(self, point):
        """How far a point is from links, other switches and the picture's edges."""
        x, y = point
        legs = (leg for line in self.lines.values() for leg in pairwise(line))
        edges = x - 10, y - TOP, self.width - x - 10, self.height - y - 10
        boxes = (box_of(middle, self.half, 10) for middle in self.at.values())
        inside = any(box[0] < x < box[2] and box[1] < y < box[3] for box in boxes)
        return min(-1 if inside else ROOM, *edges, *(apart(point, *leg) for leg in legs))

    def message(self, one, two, colour):
        """A curve from one switch to another, and the points of its numbers."""
        points = self.bow(one, two)
        head = f'stroke-width="2" stroke-dasharray="6 4" marker-end="url(#{colour[1:]})"'
        points = clipped(points, self.half)
        text = " ".join(f"{x:.0f},{y:.0f}" for x, y in points)
        self.parts.append(
            f'<path class="message" data-ends="{one} {two}" d="M{text}" fill="none" '
            f'stroke="{colour}" {head}/>'
        )
        return iter([spot(points, share) for share in (0.4, 0.55, 0.7, 0.85)])

    def bow(self, one, two):
        """The points of a curve that passes no other switch; of a bent line where all curves do."""
        others = [name for name in self.at if name not in (one, two)]
        boxes = [box_of(self.at[name], self.half) for name in others]
        own = box_of(self.at[two], self.half, 0)
        for bend in BENDS:
            curve = list(bowed(self.at[one], self.at[two], bend))
            if all(self.is_inside(*point) for point in curve):
                if not any(is_met(box, curve) for box in boxes):
                    return [*(p for p in curve if not is_in(p, own)), self.at[two]]
        return around(self.at[one], self.at[two], boxes, ROUND)

    def is_inside(self, x, y):
        """Whether a point, and a number there, are within the picture."""
        return 12 < x < self.width - 12 and TOP < y < self.height - 12


def is_in(point, box):
    return box[0] < point[0] < box[2] and box[1] < point[1] < box[3]


def told_of(switch, phases):
    """The text below a switch: its ports, whether it has rules, and what is wrong with it."""
    told = [f"port {port}" for port in switch.get("ports", [])]
    told = told if len(told) < 4 else [f"{len(told)} ports"]
    told += ["authority"] if switch.get("authority") else []
    return told + ([f"✕ {phases[switch['name']]}"] if switch["name"] in phases else [])
