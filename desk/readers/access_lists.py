"""Reads access lists of IPv4 as IOS has them in its configuration, and as it shows them.

These are lines `access-list NUMBER ..`, lists that begin with `ip access-list ..`, and the text of
`show ip access-lists`. The entries of a list are taken by their sequence numbers. Object groups are
read where they are in the same text.
"""
import re
from typing import NamedTuple

from readers.common import Refused, Unsaid
from readers.groups import Groups
from readers.rules import ANY_ADDRESS, ANY_SERVICE, Rule, services
from readers.words import Words

STANDARD = [range(1, 100), range(1300, 2000)]
EXTENDED = [range(100, 200), range(2000, 2700)]
STEP = 10  # from the sequence number of an entry to that of the next one
GROUP = "object-group"
HEADS = [
    re.compile(r"ip access-list (?:(standard|extended) )?(\S+)$", re.I),
    re.compile(r"(standard|extended) ip access list (\S+)$", re.I),
]
OTHER_HEAD = re.compile(r"ipv6 access-list |ipv6 access list |mac access-list ", re.I)
NUMBERED = re.compile(r"access-list (\d{1,5}) (.*)", re.I)
ENTRY = re.compile(
    r"(?:(\d{1,10}) )?((?:permit|deny|remark|evaluate|dynamic|no (?:permit|deny|\d+))\b.*)", re.I
)
SHOWN = re.compile(r" \(\d+ match(es)?\)$| \(Compiled.*\)$")
LOGS = {"log", "log-input"}
NO_LIST, STRAY = "outside any access list", "an entry outside any access list"


class Entry(NamedTuple):
    """An entry of a list: its line, its words after the sequence number, the kind of the list."""

    line: int
    words: list
    is_standard: bool


class Lists:
    """The entries of each list by their sequence numbers; its other lines; those of no list."""

    def __init__(self):
        self.entries, self.unsaid, self.strays, self.others = {}, {}, [], []

    def add(self, name, sequence, entry):
        entries = self.entries.setdefault(name, {})
        number = int(sequence) if sequence else max(entries, default=0) + STEP
        if number in entries:
            self.refuse(name, entry.line, f"an earlier entry has the sequence number {number}",
                        entry.words)
        else:
            entries[number] = entry

    def refuse(self, name, line, why, words=()):
        self.entries.setdefault(name, {})
        self.unsaid.setdefault(name, []).append((line, Unsaid(why, permits_of(words))))


def read_lists(lines):
    """All lists of a text."""
    lists, head = Lists(), None
    for number, line in enumerate(lines, 1):
        text = SHOWN.sub("", " ".join(line.split())).replace(", wildcard bits ", " ")
        if not text or text.startswith("!"):
            continue
        numbered = NUMBERED.fullmatch(text)
        entry = ENTRY.fullmatch(numbered[2] if numbered else text)
        if numbered:
            head = (numbered[1], kind_of(numbered[1]))
        elif found := next(filter(None, (head.match(text) for head in HEADS)), None):
            head = (found[2], (found[1] or "extended").lower())
            lists.entries.setdefault(found[2], {})
            continue
        elif OTHER_HEAD.match(text):
            head = (" ".join(text.split()[:2]), None)
        elif not entry:
            head = head if line[0].isspace() or line[0].isdigit() else None
        take(lists, head, number, entry)
    return lists


def take(lists, head, number, entry):
    """Adds a line of the list that `head` names, or of none."""
    if head is None and entry:
        lists.strays.append((number, Unsaid(STRAY, permits_of(entry[2].split()))))
    elif head is None:
        lists.others.append((number, NO_LIST))
    elif head[1] is None:
        lists.others.append((number, f"in {head[0]}, which isn't IPv4"))
    elif entry is None or entry[2].lower().startswith("no "):
        lists.refuse(head[0], number, "it is not an entry of a list")
    elif not entry[2].lower().startswith("remark"):
        words = entry[2].split()
        lists.add(head[0], entry[1], Entry(number, words, head[1] == "standard"))


def kind_of(number):
    """The kind of a numbered list, or nothing where it isn't of IPv4."""
    if any(int(number) in numbers for numbers in STANDARD):
        return "standard"
    return "extended" if any(int(number) in numbers for numbers in EXTENDED) else None


def rules_of(lines, most, name):
    """Each entry's line, and its rule or why it is left out, and what is noted of other lines."""
    groups = Groups(lines)
    lists = read_lists(["!" if at in groups.lines else line for at, line in enumerate(lines, 1)])
    names = list(lists.entries)
    if not names:
        raise Refused("neither an access list of IPv4, nor chains of iptables, nor filters")
    if name is None and len(names) > 1:
        raise Refused(f"there are {len(names)} lists, and --list NAME takes one: {' '.join(names)}")
    if name is not None and name not in names:
        raise Refused(f"there is no list {name}, only {' '.join(names)}")
    chosen = name or names[0]
    entries = sorted(lists.entries[chosen].items())
    found = [(entry.line, rule_of(entry, most, groups)) for _, entry in entries]
    others = [
        (entry.line, f"in the list {name}")
        for name, entries in lists.entries.items()
        if name != chosen
        for entry in entries.values()
    ]
    unsaid = lists.unsaid.get(chosen, []) + lists.strays
    return unsaid + found, lists.others + others


def rule_of(entry, most, groups):
    """The rule of an entry, or why it is left out."""
    words = EntryWords(entry.words, most, groups)
    try:
        return words.standard() if entry.is_standard else words.extended()
    except Unsaid as why:
        why.permits = permits_of(entry.words)
        return why


def permits_of(words):
    """Whether an entry that is left out would permit, or nothing where it doesn't say."""
    said = [word for word in words if word.lower() in ("permit", "deny")]
    return said[0].lower() == "permit" if said else None


class EntryWords(Words):
    """The words of an entry of a list, which may name object groups."""

    def __init__(self, words, most, groups):
        super().__init__(words, most)
        self.groups, self.has_groups = groups, False

    def standard(self):
        """The rule of an entry that names only sources."""
        permits = self.permits()
        sources = self.address()
        self.end(LOGS)
        return Rule(permits, sources, [ANY_ADDRESS], [ANY_SERVICE])

    def extended(self):
        """The rule of an entry that names a protocol, both addresses, and ports."""
        permits = self.permits()
        if self.next() == GROUP:
            found = self.group("service")
            sources, targets = self.address(), self.address()
        else:
            protocol = self.protocol()
            sources, sports = self.address(), self.ports(protocol)
            targets, dports = self.address(), self.ports(protocol)
            found = services(sports, dports, [protocol])
        self.end(LOGS)
        return Rule(permits, sources, targets, found, self.has_groups)

    def permits(self):
        word = self.take()
        if word not in ("permit", "deny"):
            raise Unsaid(f"{word!r} isn't supported")
        return word == "permit"

    def address(self):
        return self.group("network") if self.next() == GROUP else super().address()

    def group(self, kind):
        """What the object group has whose name comes next."""
        self.take()
        self.has_groups = True
        return self.groups.of(kind, self.name())
