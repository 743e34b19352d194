"""Explains the codes of policies."""
from . import fields, places  # places puts the model on the path
from .asked import network_hints
from .records import lines_of, records_of
from .row_mistakes import CHANGE_HEADING, POLICY_HEADING
from .row_mistakes import at_row, heading_fault, said_record, wrong_width
from .table import plural

import plan_model

MOST_WORDS, MOST_LEAVES = 4096, 512
POLICY = {
    1: f"a policy's first record is {POLICY_HEADING}",
    2: "a row of a policy has seven fields",
    3: "the priority is not a number from 0 to 4294967295",
    4: "the source is not a prefix",
    5: "the destination is not a prefix",
    6: "the source ports are not a range",
    7: "the destination ports are not a range",
    8: "the protocol has no such name or number",
    9: "the action is neither drop nor out: and a port from 0 to 63",
    10: "an earlier row has the priority",
    11: "a policy has at most 2,000 rows",
    12: f"the rows have more than {MOST_WORDS:,} words together",
    13: "the row's action names a port that the network lacks",
    14: f"the tree of the policy has more than {MOST_LEAVES} leaves",
    15: "fewer switches than are needed have room for a partition",
}


def explain_policy(asked, name, code, row):
    """What a policy has for a code and its row."""
    if code == 1:
        return [*heading_fault(asked, name, POLICY_HEADING), *change_hint(asked, name)]
    if code in (12, 14):
        return too_many_words(asked, name, code)
    if code == 15:
        return no_room(asked, row)
    record, lines = at_row(asked, name, row)
    if record is None:
        return lines
    earlier = earlier_priority(asked, name, record)
    return lines + row_fault(asked, name, code, record, POLICY_HEADING, earlier, record.fields)


def row_fault(asked, name, code, record, form, earlier, rule):
    """What a row of this form has for a code, by the fields of its rule."""
    if code == 11:
        return ["this is the first row beyond the limit"]
    if code == 2:
        return list(wrong_width(asked, name, record, form))
    if code in (10, 13):
        return list(earlier if code == 10 else absent_port(asked, rule[6]))
    return [fields.first_fault(fields.OF_POLICY, rule)] if 3 <= code <= 9 else []


def change_hint(asked, name):
    """Where a change may be."""
    if asked.schedule is None and asked.heading(name) == CHANGE_HEADING:
        yield "plans are of whole policies: only replay takes changes, after its first policy"
    elif name in asked.policies[1:]:
        yield f"it may be a change too: then its first record is {CHANGE_HEADING}"


def earlier_priority(asked, name, record):
    """The earlier row of the same priority."""
    for other in records_of(lines_of(asked.path(name))):
        if other.row and other.row < record.row and other.fields[0] == record.fields[0]:
            yield f"row {other.row} has the priority {record.fields[0]} too: line {other.line}"
            return


def absent_port(asked, action):
    """The ports that the network has, and keys of its file that are skipped."""
    port = action.removeprefix("out:")
    owned = [(row["name"], row["ports"]) for row in asked.switches() if row.get("ports")]
    said = "; ".join(f"{name} has {', '.join(map(str, ports))}" for name, ports in owned)
    said = said or "none has any"
    yield f"look at {asked.said_network()}: no switch has the port {port} ({said})"
    yield from network_hints(asked)


def words_of(row):
    """How many words a row has: one for each pair of aligned blocks of its ports."""
    return plan_model.rules_of([row])[1]


def too_many_words(asked, name, code):
    """The rows with the most words."""
    found = [
        (words_of(record.fields), record)
        for record in records_of(lines_of(asked.path(name)))
        if record.row
    ]
    yield f"the rows of {name} have {sum(words for words, _ in found):,} words"
    words, record = max(found, key=lambda one: one[0])
    if words > 1:
        yield f"the most are of row {record.row}, {words:,}: a range has one for each aligned block"
        yield said_record(name, record)
    if code == 14:
        most = asked.network().get("leaf_rules", 64)
        yield f"look at {asked.said_network()}: leaf_rules is {most}; a larger one has fewer leaves"


def to_place(asked, wanted):
    """How many rules there were to place, and how many there is room for."""
    rules, _ = plan_model.rules_of(plan_model.rows_of(asked.path(asked.policies[0])))
    parts = plan_model.leaves(rules, (0, 0), asked.network().get("leaf_rules", 64))
    count = sum(len(held) for _, held in parts)
    copies = f", {wanted} times: {wanted * count} in all" if wanted > 1 else ""
    room = sum(row.get("authority", 0) for row in asked.switches())
    rules, held = plural(count, "rule"), plural(len(parts), "part")
    return f"to place: {rules}, in {held}{copies}; there is room for {room}"


def no_room(asked, part):
    """What the network says of room, since the row is a partition's number here."""
    wanted = 1 + asked.network().get("backups", 0)
    yield f"here the row is the number of a partition, {part}; no row of the policy is wrong"
    rooms = [(row["name"], row.get("authority", 0)) for row in asked.switches()]
    with_room = [f"{name} for {room}" for name, room in rooms if room]
    yield to_place(asked, wanted)
    switches = plural(wanted, "switch")
    yield f"look at {asked.said_network()}: {switches} must have room for each partition's rules"
    if not with_room:
        yield "no switch has room: an authority has a key such as authority = 1000"
    elif len(with_room) < wanted:
        yield f"backups is {wanted - 1}, and the switches with room are: {', '.join(with_room)}"
    else:
        yield f"room, in rules: {', '.join(with_room)}; give more authority, or smaller leaf_rules"
    yield from network_hints(asked)
