#!/usr/bin/env python3
"""Counts how deep the crates are: `checks/paths.py`.

It prints how many crates there are, how many uses of one by another, how many crates the longest
chain of uses has, and how many paths of uses begin with `TOP`. A kit that walks each path pays for
these before each check. It ends with 1 if the chain or the paths exceed the limits.
"""
import sys

from crates import height, uses, walks

TOP = "difane_cli"
LONGEST_CHAIN = 14
MOST_PATHS = 25_000


def chain_from(name):
    """A longest chain of uses that begins with this crate."""
    rest = max(uses()[name], key=height, default=None)
    return [name, *(chain_from(rest) if rest else [])]


def main():
    longest = max(map(height, uses()))
    print(f"crates {len(uses())}")
    print(f"uses {sum(map(len, uses().values()))}")
    print(f"longest chain {longest}, at most {LONGEST_CHAIN}")
    print(f"paths from {TOP} {walks(TOP):,}, at most {MOST_PATHS:,}")
    if longest > LONGEST_CHAIN:
        print("too long: " + " ".join(chain_from(max(uses(), key=height))))
    sys.exit(longest > LONGEST_CHAIN or walks(TOP) > MOST_PATHS)


main()
