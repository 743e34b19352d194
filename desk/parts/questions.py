"""The questions of desk/ask: each is a function from a case to plain values."""
from collections import Counter

from .network import DOWN
from .packets import ENDS, TRAVELLING
from .policies import REFUSED, Change
from .rest import fate
from .script import Mistake
from .story import story_of
from .words import match_of

UPDATE = "install installed stamp stamped collect".split()


def ends(case):
    """How many packets ended how, and by which ports they left."""
    packets = case.play().packets.values()
    counts = Counter(packet.end for packet in packets)
    ports = Counter(packet.port for packet in packets if packet.end == "out")
    return {
        "packets": len(packets),
        "ends": {end: counts[end] for end in ENDS},
        "ports": {str(port): ports[port] for port in sorted(ports)},
    }


def rules(case):
    """For each version the rows of its policy, and how many packets each decided."""
    play = case.play()
    uses = Counter()
    for packet in play.packets.values():
        said = packet.decision
        if said:
            uses[said["version"], said["rule"], said["by"]] += 1
    versions = play.network.versions.values()
    return {"versions": [rules_of(case, version, uses) for version in versions]}


def rules_of(case, version, uses):
    """The rows of one version with their uses; the default comes last."""
    policy, file = case.policy(version), case.policy_file(version.file)
    used = {rule for number, rule, _ in uses if number == version.number}
    named = {rule.priority for rule in policy or ()} | {"default"}
    if policy is not None and used - named:
        raise Mistake(f"{file} gives no row {min(used - named)} to version {version.number}, which "
                      "decided by it: is it the policy that was played?")
    rows = [(rule.priority, rule.file, rule.line, rule.fields[1:]) for rule in policy or ()]
    if policy is None:
        unnamed = sorted(used - {"default"}, key=int, reverse=True)
        rows = [(rule, None, None, []) for rule in unnamed]
    rows.append(("default", None, None, ["drop"]))
    return {
        "version": version.number,
        "policy": None if policy is None else file.name,
        "change of": version.before.number if is_changed(case, version) else None,
        "rules": [
            {
                "rule": rule,
                "file": file,
                "line": line,
                "says": ",".join(says),
                "authority": uses[version.number, rule, "authority"],
                "cache": uses[version.number, rule, "cache"],
            }
            for rule, file, line, says in rows
        ],
    }


def is_changed(case, version):
    """Whether a change made the version of the one before, and their files are there."""
    return case.policy(version) is not None and isinstance(case.stated(version.file), Change)


def caches(case):
    """For each switch where packets entered, how many of those decided its cache decided."""
    play = case.play()
    decided, cached, sent, used = Counter(), Counter(), Counter(), set()
    for packet in play.packets.values():
        decided[packet.ingress] += packet.decision is not None
        if packet.decision and packet.decision["by"] == "cache":
            cached[packet.ingress] += 1
            used.add(packet.decision["message"])
    brought = [one for one in play.network.messages.values() if one.body == "cache"]
    sent.update(one.to for one in brought)
    delivered = Counter(one.to for one in brought if one.delivered is not None)
    useful = Counter(one.to for one in brought if one.number in used)
    return {
        "decided": decided.total(),
        "cached": cached.total(),
        "switches": [
            {
                "switch": name,
                "decided": decided[name],
                "cached": cached[name],
                "rules sent": sent[name],
                "delivered": delivered[name],
                "used": useful[name],
            }
            for name in decided
        ],
    }


def packet(case, number):
    """The story of one packet: its lines of the journal, each in words."""
    play, told = story_of(case, number)
    if number not in play.packets:
        raise Mistake(f"the journal has no packet {number}")
    found = play.packets[number]
    return {
        "packet": number,
        "end": found.end,
        "header": found.header,
        "decision": found.decision and decision_of(case, found),
        "lines": [
            {"line": item.line, "row": item.row, **match_in(item), "words": words}
            for item, words in told
        ],
    }


def decision_of(case, packet):
    """The version and the row that decided a packet, and the line of its file."""
    said, policy = packet.decision, case.policy(packet.version) or []
    rule = next((rule for rule in policy if rule.priority == said["rule"]), None)
    return {
        "version": said["version"],
        "rule": said["rule"],
        "action": said["action"],
        "policy": rule and rule.file,
        "line": rule and rule.line,
        "says": rule and ",".join(rule.fields),
    }


def match_in(item):
    """The match of the word that an item has."""
    return {"match": match_of(item.said["word"])} if "word" in item.said else {}


def updates(case):
    """For each update its rows and messages, from submitted to the version before it retired."""
    play = case.play()
    network = play.network
    decided = {
        one.number: (one.decision["version"], one.decision["row"])
        for one in play.packets.values()
        if one.decision
    }
    return {
        "updates": [
            {**update_of(network, version, decided), **change_of(case, version)}
            for version in network.versions.values()
            if version.number > 1
        ],
        "refused": [
            {"row": item.row, "file": item.said["file"], "why": refusal_of(case, item, newest)}
            for item, newest in network.refused
        ],
    }


def update_of(network, version, decided):
    """One update: its three rows, its messages, what decided meanwhile, what it lacks."""
    done = network.versions[version.number - 1].retired
    messages = messages_of(network, version, done)
    meanwhile = {}
    for packet, (number, row) in decided.items():
        if version.submitted < row and (done is None or row <= done):
            meanwhile.setdefault(f"v{number}", []).append(packet)
    pending = [] if done else [one for one in messages if one.delivered is None]
    down = [name for name, switch in network.switches.items() if switch.phase == DOWN]
    unconfirmed = [] if done else [name for name in down if name not in network.over]
    return {
        "version": version.number,
        "file": version.file,
        "submitted": version.submitted,
        "current": version.current,
        "retired": done,
        "messages": {body: sum(one.body == body for one in messages) for body in UPDATE},
        "decided meanwhile": dict(sorted(meanwhile.items(), key=lambda pair: int(pair[0][1:]))),
        "missing": [pending_text(one) for one in pending],
        "down and not confirmed": unconfirmed,
    }


def change_of(case, version):
    """What the change of an update removed and added, each row with its place."""
    if not is_changed(case, version):
        return {"change of": None, "removed": [], "added": []}
    before, change = version.before, case.stated(version.file)
    removed = [rule for rule in case.policy(before) if rule.priority in change.removed]
    return {
        "change of": before.number,
        "removed": [rule.text() for rule in removed],
        "added": [rule.text() for rule in change.added],
    }


def refusal_of(case, item, newest):
    """Why an update was refused, and the priorities at fault where the files are there."""
    code, change, rows = item.said["code"], case.stated(item.said["file"]), case.policy(newest)
    why = REFUSED.get(code, f"code {code}")
    if rows is None or not isinstance(change, Change):
        return why
    found, priorities = change.fault(rows)
    by = sorted(priorities, key=lambda text: (len(text), text)) if found == code else []
    return f"{why}: {' '.join(by)}" if by else why


def messages_of(network, version, done):
    """The messages that name the version, and the collects of the one before, up to the row where
    the update is done, if it is."""
    wanted = {body: version.number - (body == "collect") for body in UPDATE}
    return [
        one
        for one in network.messages.values()
        if one.body in wanted and one.said["version"] == wanted[one.body]
        if done is None or one.sent <= done
    ]


def pending_text(message):
    """A message that didn't come, in words."""
    ends = f"from {message.switch}" if message.to == "controller" else f"to {message.switch}"
    return f"message {message.number}, {message.body} {ends}, {fate(message.forgotten)}"


def losses(case):
    """The packets that were lost, stuck, closed or still travel, each with its cause."""
    found = [one for one in case.play().packets.values() if one.end not in ("out", "dropped")]
    return {
        "causes": [
            {"end": end, "cause": cause, "packets": count}
            for (end, cause), count in Counter((one.end, one.cause) for one in found).items()
        ],
        "packets": [loss_of(one) for one in found],
    }


def loss_of(packet):
    """Where a packet was lost, where it was bound for, and what couldn't be used then."""
    ended = packet.end != TRAVELLING
    return {
        "packet": packet.number,
        "end": packet.end,
        "row": packet.end_row,
        "at": packet.at,
        "bound for": packet.bound_for() if packet.end != "closed" else "",
        "cause": packet.cause if ended else "no later row moves it",
        "unusable": packet.unusable,
        "found down": [f"{one} {other} in row {row}" for one, other, row, _ in packet.found],
    }
