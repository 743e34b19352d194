"""What crates.txt says, for the other scripts: which crates there are, and what each one uses."""
from functools import cache
from pathlib import Path

HOME = Path(__file__).resolve().parent.parent


@cache
def libraries():
    """The libraries that each crate uses, those of the kit too, in the order of crates.txt."""
    found = {}
    for line in (HOME / "crates.txt").read_text().splitlines():
        name, colon, rest = line.partition("#")[0].partition(":")
        if colon:
            found[name.strip()] = rest.split()
    return found


@cache
def layers():
    """The crates of each layer, by its heading, which crates.txt has as a comment."""
    found = {}
    for line in (HOME / "crates.txt").read_text().splitlines()[1:]:
        if line.startswith("# "):
            found[line.removeprefix("# ")] = []
        elif line:
            [*found.values()][-1].append(line.partition(":")[0])
    return found


@cache
def uses():
    """The crates of this repository that each one uses."""
    known = libraries()
    return {name: [other for other in known[name] if other in known] for name in known}


@cache
def height(name):
    """The crates on the longest chain of uses that begins with this one."""
    return 1 + max(map(height, uses()[name]), default=0)


@cache
def walks(name):
    """The paths of uses that begin with this crate, that of itself alone among them."""
    return 1 + sum(map(walks, uses()[name]))


@cache
def below(name):
    """All crates that this one depends on."""
    return set(uses()[name]).union(*map(below, uses()[name]))


def sources(name, *patterns):
    """The files of a crate that match one of these patterns, in order."""
    folder = HOME / "crates" / name
    return sorted(path for pattern in patterns for path in folder.glob(pattern))
