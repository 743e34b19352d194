"""Reads chains as `iptables-save` and `iptables -S` print them, of the table `filter`.

A rule of a chain is plain where it matches addresses, a protocol and ports, and accepts, drops,
rejects, or jumps to another chain of plain rules.
"""
import re
import shlex

from readers.common import Refused, Unsaid
from readers.matches import Options
from readers.rules import ANY_ADDRESS, ANY_SERVICE, Rule

TABLE = re.compile(r"\*(\S+)")
CHAIN = re.compile(r"(?::|-P |-N )(\S+)(?: (ACCEPT|DROP|-))?(?: \[\d+:\d+\])?")
RULE = re.compile(r"(?:\[\d+:\d+\] )?-A (\S+)(?: (.*))?")
PERMITS = {"ACCEPT": True, "DROP": False, "REJECT": False}
NO_DECISION = {None, "LOG", "NFLOG", "ULOG"}
NO_EFFECT = "it decides nothing"
ALL = Rule(True, [ANY_ADDRESS], [ANY_ADDRESS], [ANY_SERVICE])


def are_chains(lines):
    """Whether a text is of iptables: by its first line that is neither empty nor a comment."""
    first = next((line for line in lines if line.strip() and not line.startswith("#")), "")
    return any(form.match(first) for form in (TABLE, CHAIN, RULE))


class Chains:
    """The rules of each chain as lines and words, the line of each policy that accepts, and what
    is said of other lines."""

    def __init__(self, lines, most):
        self.rules, self.accepting, self.others, self.most = {}, {}, [], most
        table = "filter"
        for number, line in enumerate(map(str.strip, lines), 1):
            if found := TABLE.fullmatch(line):
                table = found[1]
            elif line and not line.startswith("#") and line != "COMMIT":
                self.add(number, line, table)

    def add(self, number, line, table):
        if table != "filter":
            self.others.append((number, f"in the table {table}"))
        elif found := RULE.fullmatch(line):
            self.rules.setdefault(found[1], []).append((number, found[2] or ""))
        elif found := CHAIN.fullmatch(line):
            self.rules.setdefault(found[1], [])
            if found[2] == "ACCEPT":
                self.accepting[found[1]] = number
        else:
            self.others.append((number, "it is not a line of iptables"))

    def chosen(self, name):
        """The chain of this name, or the only one with rules to which no other jumps."""
        jumps = {target_of(text) for rules in self.rules.values() for _, text in rules}
        names = [each for each, rules in self.rules.items() if rules and each not in jumps]
        names = names or list(self.rules)
        if not names:
            raise Refused("the table filter has no chain")
        if name is None and len(names) > 1:
            many = f"there are {len(names)} chains, and --list NAME takes one"
            raise Refused(f"{many}: {' '.join(names)}")
        if name is not None and name not in self.rules:
            raise Refused(f"there is no chain {name}, only {' '.join(self.rules)}")
        return name or names[0]

    def rules_of(self, chain, above=()):
        """Each line of a chain and of those to which it jumps, and its rule, or why it can't be
        said, or nothing where it decides nothing."""
        rules = inside(self.rules[chain])
        yield from ((number, None) for number, _ in self.rules[chain][len(rules) :])
        for number, text in rules:
            target = target_of(text)
            if target in PERMITS:
                yield number, rule_of(text, PERMITS[target], self.most)
            elif target in NO_DECISION:
                yield number, None
            elif self.is_plain(target, (*above, chain)):
                yield from self.jump(number, text, target, (*above, chain))
            else:
                why = "its chain {} isn't supported: it has a RETURN before its end, -g or a loop"
                why = why if target in self.rules else "its target {} isn't supported"
                yield number, Unsaid(why.format(target))

    def is_plain(self, target, above):
        """Whether a target is a chain that has no jump back or away."""
        return target in self.rules and target not in above and not returns(self.rules[target])

    def jump(self, number, text, target, above):
        """The rules of a chain, for the headers that a line which jumps there matches."""
        outer = rule_of(text, None, self.most)
        if isinstance(outer, Unsaid):
            yield number, outer
            return
        for line, rule in self.rules_of(target, above):
            yield line, rule.within(outer) if isinstance(rule, Rule) else rule


def rules_of(lines, most, name):
    """Each rule's line, and the rule or why it is left out, and what is noted of other lines."""
    chains = Chains(lines, most)
    chosen = chains.chosen(name)
    pairs = list(chains.rules_of(chosen))
    found = [(number, rule) for number, rule in pairs if rule is not None]
    if chosen in chains.accepting:
        found.append((chains.accepting[chosen], ALL))
    others = sorted((number, NO_EFFECT) for number, rule in pairs if rule is None)
    jumps = {number for number, _ in pairs}
    for other, rules in chains.rules.items():
        if other != chosen and not jumps & {number for number, _ in rules}:
            others += [(number, f"in the chain {other}") for number, _ in rules]
    return found, chains.others + others


def rule_of(text, permits, most):
    """The rule of the options of a line, or why it is left out."""
    options = Options(most)
    try:
        options.read(words_of(text))
        return options.rule(permits)
    except Unsaid as why:
        why.permits = permits
        return why


def words_of(text):
    """The words of a line, of which some are in double quotes."""
    try:
        return shlex.split(text)
    except ValueError as why:
        raise Unsaid("a quote isn't closed") from why


def target_of(text):
    """What a rule does with what it matches, or nothing."""
    found = re.search(r'(?:^| )-[jg] (\S+)', re.sub(r'"[^"]*"', "", text))
    return found and found[1]


def inside(rules):
    """The rules of a chain without those at its end that go back, as all goes back there."""
    while rules and target_of(rules[-1][1]) == "RETURN":
        rules = rules[:-1]
    return rules


def returns(rules):
    """Whether a rule of a chain goes back before its end, or goes on elsewhere for good."""
    return any(
        target_of(text) == "RETURN" or " -g " in f" {text}" for _, text in inside(rules)
    )
