"""Explains why `audit` says no: the first line that isn't good, and what is wrong with it."""
from itertools import islice

from . import places  # it puts the model on the path
from .records import quoted
from .row_mistakes import is_utf16

import slow_audit


def explain_audit(args, folder):
    """The line that isn't good, and why, as the slow model finds it."""
    trace, *policies = [folder / name for name in args[1:]]
    bad = slow_audit.found_bad(trace, *policies)
    if bad is None:
        yield "the slow model finds no such line: keep these files, and tell the maintainers"
        return
    number, why = bad
    with open(trace, encoding="latin-1", newline="\n") as file:
        text = next(islice(file, number - 1, None), "").removesuffix("\n")
    yield f"{args[1]}, line {number}: {quoted(text[:100])}"
    yield f"{args[1]} is in UTF-16: save it as UTF-8" if is_utf16(trace) else why
