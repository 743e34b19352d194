"""Reads access lists, object groups and filters for the checks, apart from `desk/policy`: each line
is asked whether it matches a header."""
import re

from desk_kit import PROTOCOLS, SERVICES, number

TESTS = {
    "eq": lambda port, values: port in values,
    "neq": lambda port, values: port not in values,
    "gt": lambda port, values: port > values[0],
    "lt": lambda port, values: port < values[0],
    "range": lambda port, values: values[0] <= port <= values[1],
}


def groups_of(lines):
    """The members of each object group as words."""
    found, name = {}, None
    for line in lines:
        words = line.split()
        if words[:1] == ["object-group"]:
            name = words[2]
            found[name] = []
        elif name and line.startswith(" "):
            found[name].append(words)
        else:
            name = None
    return found


def is_in(groups, name, address):
    """Whether an address is in an object group."""
    for words in groups[name]:
        match words:
            case ["description", *_]:
                fits = False
            case ["group-object", other]:
                fits = is_in(groups, other, address)
            case ["host", host]:
                fits = number(host) == address
            case ["range", first, last]:
                fits = number(first) <= address <= number(last)
            case [start, length] if length.startswith("/"):
                fits = (number(start) ^ address) >> 32 - int(length[1:]) == 0
            case [start, mask]:
                fits = (number(start) ^ address) & number(mask) == 0
        if fits:
            return True
    return False


def is_service(groups, name, header):
    """Whether a header has a service of an object group."""
    for first, *words in groups[name]:
        if first == "description":
            continue
        if first == "group-object":
            fits = is_service(groups, words[0], header)
        else:
            fits = header[4] in protocols_of(first)
            if words[:1] == ["source"]:
                words = words[1:]
                fits = port_fits(words, header[2]) and fits
            fits = port_fits(words, header[3]) and fits
        if fits:
            return True
    return False


def protocols_of(word):
    return (6, 17) if word == "tcp-udp" else (PROTOCOLS.get(word) or int(word),)


def port_fits(words, port):
    """Whether a port fits the test that the first words may be, which are taken away."""
    if not words or words[0] not in TESTS:
        return True
    test, values = words.pop(0), []
    while words and (words[0].isdigit() or words[0] in SERVICES):
        word = words.pop(0)
        values.append(SERVICES.get(word) or int(word))
    return TESTS[test](port, values)


def side_fits(groups, words, address, port):
    """Whether an address and a port fit the first words of an entry, which are taken away."""
    word = words.pop(0)
    if word == "any":
        fits = True
    elif word == "object-group":
        fits = is_in(groups, words.pop(0), address)
    elif word == "host":
        fits = number(words.pop(0)) == address
    else:
        wildcard = number(words.pop(0)) if words and words[0].count(".") == 3 else 0
        fits = (number(word) ^ address) & ~wildcard == 0
    return port_fits(words, port) and fits


def entry_fits(groups, line, header):
    """Whether an entry of an access list matches a header; one without a protocol is standard."""
    source, target, sport, dport, protocol = header
    line = re.sub(r"\(\d+ matches\)|^\s*\d+ |access-list \d+ ", "", line.strip())
    words = line.replace(", wildcard bits", "").split()[1:]
    if words[0] == "object-group":
        fits = is_service(groups, words[1], header)
        del words[:2]
    elif words[0] not in ("ip", *PROTOCOLS) and not (words[0].isdigit()):
        return side_fits(groups, words, source, sport)
    else:
        wanted = words.pop(0)
        fits = wanted == "ip" or protocol in protocols_of(wanted)
    fits = side_fits(groups, words, source, sport) and fits
    return side_fits(groups, words, target, dport) and fits


def filter_fits(line, header):
    """Whether a filter of ClassBench matches a header."""
    source, target, sport, dport, protocol = header
    (a, m), (b, n) = re.findall(r"([\d.]+)/(\d+)\s", line)[:2]
    ranges = re.findall(r"(\d+) : (\d+)", line)
    value, mask = (int(text, 16) for text in re.findall(r"0x(\w+)", line)[:2])
    prefixes = (number(a) ^ source) >> 32 - int(m) or (number(b) ^ target) >> 32 - int(n)
    ports = zip((sport, dport), ranges)
    inside = all(int(low) <= port <= int(high) for port, (low, high) in ports)
    return not prefixes and inside and (value ^ protocol) & mask == 0


def routed(routes, target):
    """The action of the longest route that has a destination, or a drop."""
    found = [(length, port) for start, length, port in routes
             if (number(start) ^ target) >> 32 - length == 0]
    return f"out:{max(found)[1]}" if found else "drop"


def decided(lines, groups, order, routes, header):
    """The first of these lines that matches the header, and its action, or nothing."""
    for at in order:
        line = lines[at - 1]
        is_filter = line.startswith("@")
        if filter_fits(line, header) if is_filter else entry_fits(groups, line, header):
            permitted = routed(routes, header[1]) if routes else "out:7"
            return at, "drop" if re.search(r"\bdeny\b", line) else permitted
    return None
