"""What is wrong with a field of a policy or of a schedule, in words.

A function `*_fault` gives an empty text where the program reads the field.
"""
import re

from readers.common import NUMBERS
from readers.services import SERVICES as PORTS

from .records import quoted

MOST_PRIORITY, MOST_NUMBER, MOST_PORT = 4294967295, 999999999, 63
MOST_DIGITS = 10  # a number of more is too large for any field
PROTOCOLS = NUMBERS | dict.fromkeys(("icmp6", "icmpv6", "ipv6-icmp"), 58)
DROPS = ("deny", "block", "reject", "discard")
SERVICES = {**PORTS, "dns": 53, "http": 80}
QUOTES = re.compile("[\"'`]")
PERMITS = ("permit", "allow", "accept", "forward", "pass", "out")


def number_fault(text, most, least=0):
    """Of a number in decimal digits."""
    if text == "":
        return "it is empty"
    if text[0] in "+-":
        return "it has a sign, and numbers have none"
    if not re.fullmatch("[0-9]+", text):
        return f"it is not a number in digits, from {least} to {most}"
    if len(text) > 1 and text[0] == "0":
        return f"it has a leading zero: write {text.lstrip('0')[:20] or 0}"
    if len(text) > MOST_DIGITS or not least <= int(text) <= most:
        return f"it isn't from {least} to {most}"
    return ""


def part_fault(part, most, what):
    """Of a number within a field, which is named."""
    fault = number_fault(part, most)
    return fault and f"its {what} {quoted(part)} {fault.removeprefix('it ')}"


def address_fault(text):
    """Of one address."""
    if text == "":
        return "it is empty"
    if text == "any":
        return "a packet has one address, not any"
    if "/" in text:
        return "a packet has one address, without a length"
    if ":" in text:
        return "only IPv4 addresses are read"
    parts = text.split(".")
    if not any(map(str.isdigit, parts)):
        return "it is not an address of four numbers joined by dots, and names aren't looked up"
    if len(parts) != 4:
        return f"an address has four numbers joined by dots, and here there are {len(parts)}"
    return next(filter(None, (part_fault(part, 255, "number") for part in parts)), "")


def prefix_fault(text):
    """Of a block of addresses."""
    base, slash, length = text.partition("/")
    if text == "any":
        return ""
    if text == "*":
        return "all addresses are any"
    if slash and "." in length:
        return "a length from 0 to 32 follows the slash, not a mask"
    if base == "any":
        return "any has no length"
    return address_fault(base) or (slash and part_fault(length, 32, "length"))


def port_fault(text):
    """Of a packet's port."""
    if text == "any":
        return "a packet has one port, not any; one without ports, as of icmp, has 0"
    if text == "":
        return "it is empty; a packet without ports, as of icmp, has 0"
    return number_fault(text, 65535)


def range_fault(text):
    """Of a range of ports."""
    low, dash, high = text.partition("-")
    if text in SERVICES:
        return f"names of services aren't read: {text} is {SERVICES[text]}"
    if text == "any":
        return ""
    if text == "*":
        return "all ports are any"
    if text and re.fullmatch("[0-9]+[:.,][.]?[0-9]+", text):
        return "the two ports of a range are joined by -"
    if not dash or not low:
        return number_fault(text, 65535)
    fault = part_fault(low, 65535, "first port") or part_fault(high, 65535, "last port")
    if not fault and int(low) > int(high):
        return f"the range runs backwards: write {high}-{low}"
    return fault


def proto_fault(text):
    """Of a packet's protocol."""
    if text in ("icmp", "tcp", "udp"):
        return ""
    if text in PROTOCOLS:
        return f"the names are icmp, tcp and udp; the number of {text} is {PROTOCOLS[text]}"
    if text in ("any", "ip", "*"):
        return "a packet has one protocol, by its name or number"
    if text.isalpha():
        return "the names are icmp, tcp and udp; others go by their number, from 0 to 255"
    return number_fault(text, 255)


def protocol_fault(text):
    """Of a policy's protocol."""
    if text in ("ip", "*", "all"):
        return "all protocols are any"
    return "" if text == "any" else proto_fault(text)


def action_fault(text):
    """Of an action."""
    if text == "drop":
        return ""
    if text in DROPS:
        return "the word is drop"
    if text in PERMITS or text.startswith("fwd"):
        return "a packet is forwarded by out: and a port, as in out:3"
    if not text.startswith("out:"):
        return f"it is neither drop nor out: and a port from 0 to {MOST_PORT}"
    return part_fault(text.removeprefix("out:"), MOST_PORT, "port")


def priority_fault(text):
    return number_fault(text, MOST_PRIORITY)


def count_fault(text):
    """Of the number of a packet, of a message or of a place."""
    return number_fault(text, MOST_NUMBER)


def name_fault(text):
    """Of the name of a switch as a network file has it."""
    if text == "controller":
        return "controller is what a journal calls the controller"
    if len(text) > 16:
        return f"it has {len(text)} letters, and at most 16 are allowed"
    if not re.fullmatch("[A-Za-z][A-Za-z0-9_-]*", text):
        return "a name is a letter and then letters, digits, _ or - (ASCII)"
    return ""


def looks(text):
    """What of a text is seen badly: blanks, capitals and quotes."""
    inside = text.strip()
    front, after = text[: len(text) - len(text.lstrip())], text[len(text.rstrip()) :]
    blanks = [f"{blank_name(front)} before it"] * (front != "")
    blanks += [f"{blank_name(after)} after it"] * (after != "")
    blanks += ["a blank inside"] * (len(inside.split()) > 1)
    found = [" and ".join(blanks) + ", and blanks count"] * (blanks != [])
    found += ["capitals, and only lower case is read"] * (text != text.lower())
    found += ["quotes, which aren't read"] * bool(QUOTES.search(text))
    return "it has " + ", and ".join(found)


def blank_name(blank):
    return "a line end" if set(blank) & set("\r\n") else "a blank"


def fault_of(check, text):
    """What is wrong with the text: first that it would be read without blanks and capitals."""
    bare = QUOTES.sub("", "".join(text.split())).lower()
    if bare != text and not check(bare):
        return f"{looks(text)}: write {bare}"
    return check(text)


# Of an event, a policy or a packet.


OF_POLICY = [
    ("the priority", priority_fault), ("the source", prefix_fault),
    ("the destination", prefix_fault), ("the source ports", range_fault),
    ("the destination ports", range_fault), ("the protocol", protocol_fault),
    ("the action", action_fault),
]
OF_PACKET = [
    ("the source", address_fault), ("the destination", address_fault),
    ("the source port", port_fault), ("the destination port", port_fault),
    ("the protocol", proto_fault),
]


def said(what, text, fault):
    """The field in quotes, and what is wrong with it."""
    return f"{what} {quoted(text)[:80]}: {fault}"


def first_fault(checks, texts):
    """What is wrong with the first of these fields that the program doesn't read, or nothing."""
    for (what, check), text in zip(checks, texts):
        if fault := fault_of(check, text):
            return said(what, text, fault)
    return ""
