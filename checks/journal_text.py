"""What the text of a journal has, found only by patterns, without desk/parts."""
import re
from collections import Counter

OF_PACKET = "entered|closed|tunnelled|hopped|found|rerouted|decided|exit|out|dropped|lost|stuck"


def ends(text):
    """How many packets have each end; those without one still travel."""
    found = Counter(re.findall(r"^  (out|dropped|lost|stuck|closed) ", text, re.M))
    came = len(re.findall(r"^  (?:entered|closed) ", text, re.M))
    return {**found, "travelling": came - found.total()}


def ports(text):
    return Counter(re.findall(r"^  out \d+ port (\d+)$", text, re.M))


def rules(text):
    """How many packets each version decided by each row, at an authority or by a cache."""
    line = r"^  decided \d+ v(\d+) rule (\S+) \S+ (authority|cache) "
    return Counter(re.findall(line, text, re.M))


def caches(text):
    """For each switch where packets entered, how many were decided, and how many by its cache."""
    came = dict(re.findall(r"^  entered (\d+) (\S+)$", text, re.M))
    by = re.findall(r"^  decided (\d+) .* (authority|cache) ", text, re.M)
    decided, cached = Counter(), Counter()
    for packet, how in by:
        decided[came[packet]] += 1
        cached[came[packet]] += how == "cache"
    return {name: (decided[name], cached[name]) for name in decided}


def outcomes(text):
    """For each packet the row and the action that decided it, and its end."""
    found = {packet: ["", ""] for packet in re.findall(r"^  (?:entered|closed) (\d+)", text, re.M)}
    for packet, rule in re.findall(r"^  decided (\d+) v\d+ rule (\S+ \S+)", text, re.M):
        found[packet][0] = rule
    for end, packet in re.findall(r"^  (out|dropped|lost|stuck|closed) (\d+)", text, re.M):
        found[packet][1] = end
    return found


def marks(text):
    """For each version behind the first the rows: submitted, current, and retired before it."""
    row, found = 0, {}
    for line in text.splitlines():
        match line.split():
            case ["row", number, *_]:
                row = int(number.rstrip(":"))
            case ["submitted", "file", _, "version", version]:
                found[int(version)] = [row, None, None]
            case ["current", version]:
                note(found, 1, int(version), row)
            case ["retired", version]:
                note(found, 2, int(version) + 1, row)
    return found


def note(found, place, version, row):
    """Notes the row for each version up to this one that has none yet."""
    for number, rows in found.items():
        if number <= version and rows[place] is None:
            rows[place] = row


def update_messages(text, version, done):
    """How many messages of the update to a version were sent, up to the row where it is done."""
    row, count = 0, 0
    names = rf"(?:install|stamp) boot \d+ version {version}|collect boot \d+ version {version - 1}"
    told = rf"controller (?:installed|stamped) \S+ boot \d+ version {version}"
    for line in text.splitlines():
        row = int(line.split()[1].rstrip(":")) if line.startswith("row ") else row
        if done is None or row <= done:
            count += bool(re.fullmatch(rf"  sent \d+ (?:\S+ (?:{names})|{told})", line))
    return count


def changes(text, files):
    """For each version that a change made the priorities that it removes and the rows that it adds;
    `files` has the texts of the policy files by their numbers.
    """
    found = re.findall(r"^  submitted file (\d+) version (\d+)$", text, re.M)
    return {
        int(version): (priorities(files[file], "remove"), added_rows(files[file]))
        for file, version in found
        if files[file].startswith("op,")
    }


def priorities(text, op):
    """The priorities of the rows of a change that remove, or of those that add."""
    return {*re.findall(rf"^{op},(\d+)\b", text, re.M)}


def added_rows(text):
    return re.findall("^add,(.*)$", text, re.M)


def refusals(text):
    """The row, the file and the code of each update that was refused."""
    return re.findall(r"^row (\d+): update .*\n  refused file (\d+) code (\d+)$", text, re.M)


def packet_lines(text, packet):
    """The numbers of the lines that tell of a packet, of its row, or of its cache rule."""
    numbers, messages, before = [], set(), ""
    for number, line in enumerate(text.splitlines(), 1):
        if re.match(rf"  ({OF_PACKET}) {packet}( |$)", line):
            came = re.match("  (entered|closed) ", line)
            numbers += [number - 1, number] if came else [number]
        sent = re.match(r"  sent (\d+) \S+ cache ", line)
        if sent and re.match(rf"  decided {packet} ", before):
            messages.add(sent[1])
            numbers.append(number)
        later = re.match(r"  (?:delivered|forgotten|expired \S+ \d+ message) (\d+)$", line)
        if later and later[1] in messages:
            numbers.append(number)
        before = line
    return numbers
