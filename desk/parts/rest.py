"""Why a network isn't quiet after a journal, and which rows make it quiet."""
from .network import DOWN
from .table import table

CONTROLLER = "controller"
RISING = ("stamp", "stamped", "collect")  # one of a later version says all that an earlier one does


def answer(case):
    """The switches that are waited for, and the messages that matter and weren't received."""
    network, links = case.play().network, [link["ends"] for link in case.net().get("link", [])]
    waited = [
        name for name, switch in network.switches.items()
        if switch.phase == DOWN and name not in network.over
    ]
    missing = lacking(network)
    return {
        "quiet": not waited and not missing,
        "waited for": [{"switch": name, "row": network.switch(name).since} for name in waited],
        "missing": [missing_of(message) for message in missing],
        "rows": rows_to_rest(network, waited, missing),
        "may stay": [one.number for one in missing if may_stay(network, links, one)],
    }


def lacking(network):
    """The messages that matter, weren't delivered, and that no later one replaces which was."""
    current = max(one.number for one in network.versions.values() if one.current is not None)
    heard, found = {}, []
    for message in reversed(network.messages.values()):
        claim, rank = claim_of(message)
        if message.delivered is not None:
            heard[claim] = max(rank, heard.get(claim, rank))
        elif matters(network, message, current) and (claim not in heard or heard[claim] < rank):
            found.append(message)
    return found[::-1]


def matters(network, message, current):
    """Whether the message is of the boot that its switch is in, and of no version that is over."""
    switch, said = network.switch(message.switch), message.said
    if message.body == "cache" or switch.phase == DOWN:
        return False
    if message.to != CONTROLLER and message.boot != switch.boot:
        return False
    if message.body == "advert":
        return True
    is_old = message.body in ("install", "installed") and said["version"] < current
    return said["boot"] == switch.boot and not is_old


def claim_of(message):
    """What the message is about, and how new it is: a newer one of the same claim replaces it."""
    said, ends = message.said, (message.body, message.to, message.switch)
    if message.body == "advert":
        return (*ends, said["other"]), (said["boot"], said["seq"])
    version = said.get("version")
    if message.body in RISING:
        return (*ends, said["boot"]), version
    return (*ends, said.get("boot"), version), 0


def may_stay(network, links, message):
    """Whether no one may send it again: a copy, or an advert of a switch that isn't reachable."""
    if message.forgotten is None:
        return False
    if message.body != "advert":
        claim, rank = claim_of(message)
        return any(
            one.delivered is not None and claim_of(one)[0] == claim and claim_of(one)[1] >= rank
            for one in network.messages.values()
        )
    usable = [
        {*ends} for ends in links
        if tuple(ends) not in network.links_down and tuple(ends[::-1]) not in network.links_down
        and all(network.switch(end).phase != DOWN for end in ends)
    ]
    near = {message.switch}
    while more := {name for ends in usable if ends & near for name in ends} - near:
        near |= more
    return message.said["other"] not in near - {message.switch}


def missing_of(message):
    said, is_report = message.said, message.to == CONTROLLER
    about = f" of {said['other']}" if message.body == "advert" else ""
    about = f" of version {said['version']}" if "version" in said else about
    return {
        "message": message.number,
        "says": f"{message.body}{about} {'from' if is_report else 'to'} {message.switch}",
        "sent": message.sent,
        "forgotten": message.forgotten,
    }


def rows_to_rest(network, waited, missing):
    """Rows of a schedule after which the network is quiet; none if it is already."""
    up = [name for name, switch in network.switches.items() if switch.phase != DOWN]
    is_lost = any(message.forgotten is not None for message in missing)
    rows = [f"confirm,{name}" for name in waited]
    rows += [f"resend,{name}" for name in up if is_lost]
    return rows + ["flush"] if waited or missing else []


def text(found):
    if found["quiet"]:
        yield "the network is quiet after the last row"
        return
    yield "the network isn't quiet after the last row"
    for one in found["waited for"]:
        yield f"switch {one['switch']} is down since row {one['row']}, and no row confirms it"
    if found["missing"]:
        rows = [
            (one["message"], one["says"], one["sent"], fate(one["forgotten"]))
            for one in found["missing"]
        ]
        yield "messages that matter and weren't received:"
        yield from table(["message", "what it says", "row", "since then"], rows)
    yield "rows that make it quiet:"
    yield from (f"    {row}" for row in found["rows"])
    for number in found["may stay"]:
        yield (f"message {number} may never be sent again: its sender is down or cut "
               "off, or a copy of it was received: so `quiet` may stay `no`")


def fate(forgotten):
    return "waits" if forgotten is None else f"forgotten in row {forgotten}"
