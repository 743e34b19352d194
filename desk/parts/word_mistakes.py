"""Explains arguments that are off the grammar of the command line."""
from difflib import get_close_matches
from textwrap import shorten

from . import fields
from .records import quoted, quoted_if_odd

# Of each command its form, what its names are, and how many they are at least and at most.
COMMANDS = {
    "replay": ("replay SCHEDULE POLICY.. [--net NET] [--quiet]", "a schedule and policies", 2, 65),
    "compile": ("compile POLICY [--net NET]", "one policy", 1, 1),
    "show": ("show POLICY SWITCH [--net NET]", "a policy and a switch", 2, 2),
    "flows": ("flows SCHEDULE POLICY.. [--net NET]", "a schedule and policies", 2, 65),
    "rebalance": ("rebalance SCHEDULE POLICY.. [--net NET]", "a schedule and policies", 2, 65),
    "audit": ("audit TRACE POLICY..", "a trace and policies", 2, 65),
    "load": ("load N", "a number", 1, 1),
}


def explain_words(args):
    """The first rule of the command line that the arguments break."""
    said = " ".join(map(quoted_if_odd, args))
    yield f"the grammar doesn't have these arguments: {shorten(said, 90, placeholder=' ..') or '-'}"
    otherwise = "options come before the names or after them"
    yield next(filter(None, word_faults(args)), otherwise)


def word_faults(args):
    """The rules of the command line in turn; empty texts for those that hold."""
    if not args:
        yield f"the commands are {', '.join(COMMANDS)}"
        return
    command, *rest = args
    if command not in COMMANDS:
        near = get_close_matches(command.strip("-").lower(), COMMANDS, 1)
        hint = f": perhaps {near[0]}" if near else ""
        yield f"{quoted(command)} is not a command{hint}; these are {', '.join(COMMANDS)}"
        return
    yield from option_faults(rest, command)
    names = names_among(rest)
    yield load_fault(names) if command == "load" else count_fault(command, len(names))


def count_fault(command, count):
    """What is wrong with the number of names."""
    form, what, least, most = COMMANDS[command]
    if least <= count <= most:
        return ""
    if count > most > least:
        return f"{count - 1} policies are named, and {most - 1} is the most"
    said = "1 name is" if count == 1 else f"{count} names are"
    return f"{command} takes {what}, and {said} there: {form}"


def names_among(rest):
    """The arguments that are no options, nor the network after one."""
    return [
        arg for at, arg in enumerate(rest)
        if not arg.startswith("-") and not (at and rest[at - 1] == "--net")
    ]


def option_faults(rest, command):
    """What is wrong with the options."""
    if "" in rest:
        yield "an argument is empty"
    for option in ("--net", "--quiet"):
        if sum(arg == option or arg.startswith(f"{option}=") for arg in rest) > 1:
            yield f"{option} occurs twice"
    if rest and rest[-1] == "--net" or "--net=" in rest:
        yield "--net takes the name of a network's file"
    if "--quiet" in rest and command != "replay":
        yield "--quiet is only for replay"
    if command in ("load", "audit") and any(arg.startswith("--net") for arg in rest):
        yield f"{command} takes no network"
    for at, arg in enumerate(rest):
        known = arg in ("--net", "--quiet") or arg.startswith("--net=")
        if arg.startswith("-") and not known:
            near = get_close_matches(arg, ["--net", "--quiet"], 1)
            hint = f", perhaps {near[0]}" if near else ""
            yield f"{quoted(arg)} is not an option{hint}, and names don't begin with a dash: ./{arg}"


def load_fault(names):
    """What is wrong with the number of a load case."""
    if len(names) != 1:
        return "load takes one number, from 1 to 1000"
    fault = fields.fault_of(lambda text: fields.number_fault(text, 1000, 1), names[0])
    return fault and f"the number is {quoted(names[0])}: {fault}"
