"""One packet's story: its lines of the journal, each in words."""
from .packets import HEADER, OF_MESSAGE
from .words import spelled


def header_text(header):
    """A header as `tcp 10.0.1.5:40000 to 10.0.2.10:443`."""
    src, dst, sport, dport, proto = (header[name] for name in HEADER)
    return f"{proto} {src}:{sport} to {dst}:{dport}"


def way(names):
    """A route as `a > b > d`."""
    return " > ".join(names)


def rule_text(said):
    """The row that decides, as `row 300` or `the default`."""
    return "the default" if said["rule"] == "default" else f"row {said['rule']}"


TEXTS = {
    "entered": "it enters at {switch} as packet {packet}",
    "closed": "{switch} accepts no packets: {cause}",
    "tunnelled": "{first} has no rule for it: it is sent to {last}, an authority of part {part} of "
                 "version {version}, by {way}",
    "hopped": "it moves on to {switch}",
    "sent": "message {message} takes this to the cache of {to}: {match} {action}",
    "delivered": "message {message} reaches {to}",
    "forgotten": "message {message} is forgotten, and won't reach any switch",
    "expired": "the cache rule of message {message} times out at {switch}",
    "exit": "it is sent to {bound}, by {way}",
    "out": "it leaves by port {port} of {at}",
    "dropped": "it is dropped at {at}",
    "lost": "it is lost at {at}, bound for {bound}: {cause}",
    "stuck": "it is stuck at {at}, bound for {bound}: {cause} ({unusable})",
}


def facts_of(item, play):
    """What the texts name of a line."""
    route, word = item.said.get("route", [""]), item.said.get("word")
    facts = {**item.said, "first": route[0], "last": route[-1], "way": way(route)}
    if item.kind in OF_MESSAGE:
        return {**facts, "to": play.network.message(item).switch, "match": word and spelled(word)}
    packet = play.packet(item)
    unusable = ", ".join(packet.unusable) or "no link joins them"
    return {**facts, "at": packet.at, "bound": packet.bound_for(), "cause": packet.cause,
            "unusable": unusable}


def tell_row(item, play):
    said = item.said
    return f"{header_text(said)} arrives at {said['switch']}"


def tell_found(item, play):
    said, why = item.said, play.packet(item).found[-1][-1]
    return f"it can't go from {said['switch']} to {said['other']}: {', '.join(why)}"


def tell_rerouted(item, play):
    route = item.said["route"]
    if len(route) == 1:
        return f"it needs no other route, since {route[0]} is a target too"
    return f"it takes another route to {route[-1]}: {way(route)}"


def tell_decided(item, play):
    said = item.said
    by = f"{rule_text(said)} of version {said['version']} decides it: {said['action']}"
    if said["by"] == "authority":
        return f"{by}; found at the authority {said['switch']}, in part {said['part']}"
    rule, at = play.network.message(item), play.packet(item).ingress
    brought = f"message {rule.number}, sent as packet {rule.packet} was decided"
    brought += f", arrived in row {rule.delivered}"
    return f"{by}; found in the cache of {at}, for {spelled(rule.said['word'])} ({brought})"


TELLERS = {"row": tell_row, "found": tell_found, "rerouted": tell_rerouted, "decided": tell_decided}


def words_of(item, play):
    """A line in words."""
    tell = TELLERS.get(item.kind)
    return tell(item, play) if tell else TEXTS[item.kind].format(**facts_of(item, play))


def story_of(case, number):
    """The play to its end, and the packet's items in order, each with its words."""
    play, before, told = case.start(), None, []
    for item in case.followed(play):
        if play.about(item) == number:
            items = [before, item] if item.kind in ("entered", "closed") else [item]
            told += [(one, words_of(one, play)) for one in items]
        before = item
    return play, told
