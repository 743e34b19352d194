"""Lines of columns, and counts in words."""


def table(heading, rows):
    """Lines of columns; a column whose cells are all numbers is aligned to the right."""
    cells = [list(map(str, row)) for row in [heading, *rows]]
    wide = [max(map(len, column)) for column in zip(*cells)]
    right = [all(isinstance(row[k], int) for row in rows) for k in range(len(heading))]
    for row in cells:
        texts = [
            text.rjust(width) if is_right else text.ljust(width)
            for text, width, is_right in zip(row, wide, right)
        ]
        yield "  ".join(texts).rstrip()


def plural(count, noun):
    """So many of these: `1 packet`, `2 switches`."""
    ending = "es" if noun.endswith("ch") else "s"
    return f"{count:,} {noun}{ending * (count != 1)}"
