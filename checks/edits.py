#!/usr/bin/env python3
"""Checks that each must-fail edit still applies: `checks/edits.py`.

An edit names a file of its crate (`file: `), a text in it (`old: `) and the text that replaces it
(`new: `). It ends with 1 if there is no such file, or if the old text doesn't occur in it exactly
once.
"""
import sys

from crates import HOME, libraries, sources


def faults(edit):
    """The number of replacements of an edit, and what is wrong with them."""
    file, count, wrong = None, 0, []
    for line in edit.read_text().splitlines():
        key, _, rest = line.partition(": ")
        if key == "file":
            file = edit.parent.parent / rest
            if not file.is_file():
                wrong.append(f"no file {rest}")
        elif key == "old":
            count += 1
            found = file.read_text().count(rest) if file and file.is_file() else 0
            if found != 1:
                wrong.append(f"occurs {found} times: {rest[:80]}")
    return count, wrong


def main():
    edits, replacements, wrong = 0, 0, 0
    for name in libraries():
        for edit in sources(name, "must-fail/*.edit"):
            count, found = faults(edit)
            edits, replacements, wrong = edits + 1, replacements + count, wrong + len(found)
            for fault in found:
                print(f"{edit.relative_to(HOME)}: {fault}")
    print(f"{edits} edits, {replacements} replacements, {wrong} don't apply")
    sys.exit(wrong > 0)


main()
