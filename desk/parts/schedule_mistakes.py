"""Explains the codes of schedules."""
from difflib import get_close_matches

from . import fields
from .asked import names_hint, network_hints
from .records import quoted
from .row_mistakes import FORMS, SCHEDULE_HEADING
from .row_mistakes import at_row, heading_fault, no_row_meant, wrong_width

# How many fields after a kind name switches.
SWITCH_FIELDS = {kind: form.count("S,T") + 1 for kind, form in FORMS.items() if ",S" in form}
SCHEDULE = {
    1: f"a schedule's first record is {SCHEDULE_HEADING}",
    2: "a row of this kind has another number of fields",
    3: "the first field is not a kind of event",
    4: "no switch has the name",
    5: "a packet, a message or a place is not a number from 0 to 999999999",
    6: "a field of the packet's header is not an address, port or protocol",
    7: "the file is not a number from 1 to that of the policy files",
    8: "a schedule has at most 100,000 rows",
    9: "both are switches, and no link joins them",
}


def explain_schedule(asked, name, code, row):
    """What a schedule has for a code and its row."""
    if code == 1:
        return heading_fault(asked, name, SCHEDULE_HEADING)
    record, lines = at_row(asked, name, row)
    if record is None:
        return lines
    kind, *left = record.fields
    if code == 2:
        lines += wrong_width(asked, name, record, FORMS[kind])
        if kind == "packet" and len(left) == 4:
            lines.append("a packet without ports, as of icmp, has 0 for both: "
                         "packet,S,SRC,DST,0,0,icmp")
    elif code == 3:
        lines += unknown_kind(record)
    elif code == 4:
        named = left[: SWITCH_FIELDS[kind]]
        absent = next(text for text in named if text not in asked.switch_names())
        lines.append(f"the switch is {quoted(absent)}")
        lines += names_hint(asked, absent)
    elif code == 5:
        fault = fields.fault_of(fields.count_fault, left[-1])
        lines.append(fields.said("the number", left[-1], fault))
    elif code == 6:
        lines.append(fields.first_fault(fields.OF_PACKET, left[1:]))
    elif code == 7:
        lines += wrong_file(asked, left[0])
    elif code == 8:
        lines.append("this is the first row beyond the limit")
    elif code == 9:
        lines += absent_link(asked, left)
    return lines


def unknown_kind(record):
    """The kind in quotes, and the one that is nearest."""
    kind = record.fields[0]
    bare = kind.strip().lower()
    if kind != bare and bare in FORMS:
        yield fields.said("the kind", kind, f"{fields.looks(kind)}: write {bare}")
        return
    near = get_close_matches(bare.replace("_", "").replace("-", ""), FORMS, 1)
    hint = f"perhaps {near[0]}" if near else f"the kinds are {', '.join(FORMS)}"
    yield f"the kind {quoted(kind)}: {no_row_meant(record) or hint}"


def wrong_file(asked, text):
    """The policy files that there are."""
    count = len(asked.policies)
    fault = fields.fault_of(lambda one: fields.number_fault(one, count, 1), text)
    yield fields.said("the file", text, fault)
    said = ", ".join(f"{number} is {name}" for number, name in enumerate(asked.policies, 1))
    yield f"the files are the policies of the command: {said}"


def absent_link(asked, ends):
    """The links of the first switch."""
    one, other = ends
    if one == other:
        yield f"both ends are {one}"
    links = asked.network().get("link", [])
    far = [end for link in links if one in link["ends"] for end in link["ends"] if end != one]
    said = ", ".join(far) or "nothing"
    yield f"look at {asked.said_network()}: the links of {one} lead to {said}"
    yield from network_hints(asked)
