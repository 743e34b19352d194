"""Explains the codes of changes of policies."""
import re

from . import fields
from .policy_mistakes import POLICY, row_fault
from .records import lines_of, quoted, record_at, records_of
from .row_mistakes import CHANGE_HEADING, EDIT_FORMS, POLICY_HEADING
from .row_mistakes import at_row, heading_fault, no_row_meant, said_record

CHANGE = {
    **{code: POLICY[code] for code in (3, 4, 5, 6, 7, 8, 9, 13)},
    1: f"a change's first record is {CHANGE_HEADING}",
    2: "a row remove has two fields, and a row add eight",
    10: "an earlier row does the same to the priority",
    11: "a change has at most 2,000 rows",
    22: "the first field is neither remove nor add",
    23: "the first policy of a replay can't be a change",
}
WORDS = {
    "remove": ("delete", "del", "rm", "drop", "-", "no"),
    "add": ("insert", "append", "new", "+", "put"),
}
REPLACE = ("replace", "change", "modify", "update", "set", "swap")


def explain_change(asked, name, code, row):
    """What a change has for a code and its row."""
    if code == 1:
        return heading_fault(asked, name, CHANGE_HEADING)
    if code == 23:
        return first_change(asked, name)
    record, lines = at_row(asked, name, row)
    if record is None:
        return lines
    first, *rule = record.fields
    if code == 22:
        return [*lines, f"the first field {quoted(first)}: {edit_hint(record)}"]
    earlier = earlier_edit(asked, name, record)
    return lines + row_fault(asked, name, code, record, EDIT_FORMS.get(first), earlier, rule)


def first_change(asked, name):
    """That a whole policy comes first, and which of those that are named is one."""
    yield said_record(name, record_at(asked.path(name), 0))
    yield "a change says what to remove from the policy before it, and what to add"
    others = (other for other in asked.policies if asked.heading(other) == POLICY_HEADING)
    whole = next(others, None)
    if whole is not None:
        yield f"{whole} is a whole policy, which may come first"


def edit_hint(record):
    """What to write instead of the first field."""
    first, *left = record.fields
    bare = fields.QUOTES.sub("", first.strip()).lower()
    if bare in EDIT_FORMS:
        return f"{fields.looks(first)}: write {bare}"
    if len(left) == 6 and first[:1].isdigit():
        return f"this is a row of a policy: write add,{first},.. to add it, or remove,{first}"
    if bare in REPLACE:
        return "two rows replace a row: remove,PRIORITY and add, with all fields of the new one"
    if not left and re.search("[;\t]", first):
        return "the fields are joined by commas"
    meant = [op for op, words in WORDS.items() if bare in words] or EDIT_FORMS
    return no_row_meant(record) or f"write {' or '.join(meant)}"


def earlier_edit(asked, name, record):
    """The earlier row that does the same to this priority."""
    for other in records_of(lines_of(asked.path(name))):
        if other.row and other.row < record.row and other.fields[:2] == record.fields[:2]:
            does = "removes" if other.fields[0] == "remove" else "adds a row of"
            yield f"row {other.row} {does} the priority {record.fields[1]} too: line {other.line}"
            return
