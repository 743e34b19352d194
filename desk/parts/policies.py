"""What a policy file states: the rows of a policy, or a change of one."""
from typing import NamedTuple

from . import fields
from .records import records_of
from .row_mistakes import CHANGE_HEADING, EDIT_FORMS, POLICY_HEADING
from .script import Mistake

HEADING, OF_CHANGE = POLICY_HEADING.split(","), CHANGE_HEADING.split(",")
WIDTHS = {op: form.count(",") + 1 for op, form in EDIT_FORMS.items()}
MOST_ROWS = 2000
ABSENT, TAKEN, TOO_MANY = 24, 25, 26
REFUSED = {  # why an update is refused while it plays, by its code
    12: "the policy would have more than 4,096 words",
    14: "the policy would have more than 512 partitions",
    15: "too few switches have room for a partition",
    16: "eight versions live",
    17: "there are 64 versions",
    ABSENT: "its change removes rows that the newest version doesn't have",
    TAKEN: "its change adds rows of priorities that the newest version has and keeps",
    TOO_MANY: "with its change, the newest version would have more than 2,000 rows",
}


class Rule(NamedTuple):
    """A row of a policy: its priority, its file and the line there, and its fields."""

    priority: str
    file: str
    line: int
    fields: list

    def text(self):
        return f"{self.file} line {self.line}: {','.join(self.fields)}"


class Change(NamedTuple):
    """The priorities of rows to remove, and rows to add."""

    removed: set
    added: list

    def of(self, rows):
        """The rows that stay of these, and after them those that are added."""
        return [rule for rule in rows if rule.priority not in self.removed] + self.added

    def fault(self, rows):
        """The code by which it can't be applied to these rows, or None, and the priorities."""
        there = {rule.priority for rule in rows}
        absent = self.removed - there
        taken = {rule.priority for rule in self.added} & (there - self.removed)
        if absent or taken:
            return (ABSENT, absent) if absent else (TAKEN, taken)
        return TOO_MANY if len(self.of(rows)) > MOST_ROWS else None, set()


def read_policy(path):
    """What the file at this path states, by its heading: a list of rules, or a change."""
    with open(path, newline="", encoding="utf-8-sig", errors="replace") as text:
        records = list(records_of(text))
    heading, rows = records[0].fields if records else [], records[1:]
    if heading == HEADING and all(len(row.fields) == len(HEADING) for row in rows):
        return [rule_at(path, row, row.fields) for row in rows]
    if heading == OF_CHANGE and all(is_edit(row.fields) for row in rows):
        removed = {row.fields[1] for row in rows if row.fields[0] == "remove"}
        added = [row for row in rows if row.fields[0] == "add"]
        return Change(removed, [rule_at(path, row, row.fields[1:]) for row in added])
    raise Mistake(f"{path} is not a policy: {POLICY_HEADING} and rows of seven fields; nor is it a "
                  "change, with op as its first column and rows that add or remove")


def is_edit(fields):
    """Whether a row of a change has as many fields as its kind."""
    return len(fields) == WIDTHS.get(fields[0])


def rule_at(path, row, texts):
    """The rule of a row, whose fields have to be those of a policy."""
    if fault := fields.first_fault(fields.OF_POLICY, texts):
        raise Mistake(f"{path.name} line {row.line}: {fault}")
    return Rule(texts[0], path.name, row.line, texts)
