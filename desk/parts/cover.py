"""Whether boxes cover a box together: exactly, by taking one after the other away from it."""
from .boxes import lowest, places


def cover(boxes, box, rows):
    """A part of the box that none of the rows meets, and the rows that cover it; one is None."""
    used, left = 0, [(box, rows)]
    while left:
        box, rows = left.pop()
        rows = boxes.meeting(box, rows)
        if not rows:
            return box, None
        found, is_whole = boxes.holding(box, rows)
        row = lowest(found)
        used |= 1 << row
        if not is_whole:
            left += ((piece, rows) for piece in pieces(box, boxes.boxes[row]))
    return None, used


def pieces(box, hole):
    """The box without the hole, in boxes that don't meet."""
    left = list(box)
    for field, ((low, high), (first, last)) in enumerate(zip(box, hole)):
        if low < first:
            yield *left[:field], (low, first - 1), *left[field + 1 :]
        if last < high:
            yield *left[:field], (last + 1, high), *left[field + 1 :]
        left[field] = max(low, first), min(high, last)


def needed(boxes, box, used):
    """As few of the rows as still cover the box: each goes whose part others cover."""
    for row in places(used):
        part = tuple(
            (max(low, first), min(high, last))
            for (low, high), (first, last) in zip(box, boxes.boxes[row])
        )
        if cover(boxes, part, used & ~(1 << row))[1] is not None:
            used &= ~(1 << row)
    return used
