"""The kinds of inputs of `bench/rows.py` that are plain: many of each kind of row, of refused
update, of policy, of command and of text."""
from random import Random

from plans import in_512_parts, scattered, subnets
from row_inputs import (
    ALL_PORTS, HERE, HOSTS, HUB, MESH, ONE, PAIR, THREE, TWO, WIDE, Input, all_hold, anywhere,
    audit, behind_each, blocks, change, each, falling, few_parts, fields, lines, network,
    of_network, packet, packets, play, policy, with_half,
)

# Of each kind what makes an input of a size. With it may come the least of the three sizes, where
# it isn't 1,000, and what the time grows with, where that isn't the size.

PACKETS = {
    "packets, 2,000 rows": lambda n: play(packets(n, 0), TWO, [subnets(Random(5), 2000)]),
    "packets, 64 switches, 256 links": lambda n: play(anywhere(n), MESH, [blocks(2000)]),
    "packets at a switch that is down": lambda n: play(["crash,s1", *packets(n - 1)]),
    "packet, drain: 64 switches": lambda n: play(behind_each(anywhere(n // 2), "drain"), MESH),
    "packet, drain, flush: 64 switches": lambda n: play(
        behind_each(anywhere(n // 3), "drain", "flush"), MESH, [blocks(2000)]
    ),
    "packets, one drain": lambda n: play([*packets(n - 1), "drain"]),
    "hops of the last packet": lambda n: with_half(n, each("hop", [n // 2] * (n // 2))),
    "hops, the last packet first": lambda n: with_half(n, each("hop", falling(n // 2))),
    "losses, the last packet first": lambda n: with_half(n, each("lose", falling(n // 2))),
    "drains where no packet travels": lambda n: play(["drain"] * n),
}

SENT = 4034  # messages of a row `resend` to the hub of the star


def waiting(n, kind, order):
    """Nearly as many messages wait as there are rows, and rows of this kind follow."""
    resent = n // SENT
    return play(["resend,s0"] * resent + each(kind, order(resent * SENT))[: n - resent], HUB)


MESSAGES = {
    "deliveries, the last message first": (5_000, lambda n: waiting(n, "deliver", falling)),
    "deliveries of the last message": (
        5_000, lambda n: waiting(n, "deliver", lambda last: [last] * n)
    ),
    "forgotten, the last message first": (5_000, lambda n: waiting(n, "forget", falling)),
    "resends, 2 switches": lambda n: play(["resend,s1"] * n),
    "resend, flush: 2 switches": lambda n: play(["resend,s1", "flush"] * (n // 2)),
    "flushes where no message waits": lambda n: play(["flush"] * n),
    "resends to the hub of 64": (12, lambda n: play(["resend,s0"] * n, HUB)),
    "resends to the hub, one flush": (
        12, lambda n: play(["resend,s0"] * n + ["flush"], HUB)
    ),
    "7 updates wait, resends": (
        500,
        lambda n: play(
            [*each("update", range(2, 9)), *["resend,s1"] * n], HUB, map(blocks, range(1, 9))
        ),
    ),
}

CRASHES = {
    "crash, restart": lambda n: play(["crash,s1", "restart,s1"] * (n // 2), HUB),
    "crash, restart, flush": lambda n: play(["crash,s1", "restart,s1", "flush"] * (n // 3)),
    "crash, confirm, restart, flush": lambda n: play(
        ["crash,s1", "confirm,s1", "restart,s1", "flush"] * (n // 4)
    ),
    "confirmed, but up": lambda n: play(["confirm,s1"] * n),
    "10 packets stand, crash, restart, flush": lambda n: play(
        [*packets(10), "crash,s1", "restart,s1", "flush"] * (n // 13)
    ),
    "packets stand, another switch crashes": lambda n: play(
        [*packets(n // 2), *["crash,s2", "restart,s2", "flush"] * (n // 6)], THREE
    ),
    "packets stand, one crash": lambda n: play([*packets(n - 1), "crash,s1"]),
}

LINKS = {
    "linkdown, linkup": lambda n: play(["linkdown,s0,s1", "linkup,s0,s1"] * (n // 2)),
    "linkup, but up": lambda n: play(["linkup,s0,s1"] * n),
    "linkdown, packet, drain, linkup": lambda n: play(
        behind_each(["linkdown,s0,s1"] * (n // 4), packet(1), "drain", "linkup,s0,s1")
    ),
    "crash, restart, flush: 256 links": (
        24, lambda n: play(["crash,s5", "restart,s5", "flush"] * (n // 3), MESH)
    ),
    "packet, linkdown, drain, linkup: 256 links": (
        400,
        lambda n: play(
            behind_each(anywhere(n // 4), "linkdown,s0,s1", "drain", "linkup,s0,s1"), MESH
        ),
    ),
    "linkdown, linkup, flush: 256 links": (
        30,
        lambda n: play(["linkdown,s5,s6", "linkup,s5,s6", "flush"] * (n // 3), MESH),
    ),
}


# ---- caches that are as full as can be

EVEN = [k for k in range(32) if k.bit_count() % 2 == 0]
ODD = [k for k in range(32) if k.bit_count() % 2 == 1]
SIDES = ["10.0.0.{},any,any,any", "any,10.0.0.{},any,any", "any,any,{},any", "any,any,any,{}"]


def corners():
    """A policy by which each of 65,536 headers has a cache rule of its own: rows take what differs
    from it in one bit."""
    rows = [side.format(k) for side in SIDES for k in EVEN]
    return policy(f"{k},{row},any,out:0" for k, row in enumerate(rows))


def corner(k):
    """A packet of one of these headers."""
    one, two, three, four = (ODD[k >> shift & 15] for shift in (12, 8, 4, 0))
    return f"packet,s1,10.0.0.{one},10.0.0.{two},{three},{four},tcp"


def cached(rules, rows, cache=65_536):
    """So many cache rules reach s1, and these rows follow."""
    net = lines(network(2, PAIR, cache=cache))
    return play([*map(corner, range(rules)), "drain", "flush", *rows], net, [corners()])


def going_round(n):
    """An entry of a full cache times out and two come, again and again: one to the free place, one
    to that of the first entry."""
    room, rows = n * 2 // 7, []
    for k in range(1, room, 2):
        rows += ["expire,s1,0", f"deliver,{k}", f"deliver,{k + 1}"]
    return cached(2 * room, rows, room)


CACHES = {
    "expiries of the first entry": lambda n: cached(n // 2, ["expire,s1,0"] * (n // 2)),
    "expiries of the last entry": lambda n: cached(
        n // 2, (f"expire,s1,{k - 1}" for k in falling(n // 2))
    ),
    "expiries of the entry in the middle": lambda n: cached(
        n // 2, (f"expire,s1,{k // 2}" for k in falling(n // 2))
    ),
    "expiries of no entry": lambda n: play(["expire,s1,0"] * n),
    "packets, no entry is theirs": lambda n: cached(n // 2, packets(n // 2)),
    "packets, the last entry is theirs": lambda n: cached(n // 2, [corner(n // 2 - 1)] * (n // 2)),
    "packet, drain, flush: a cache fills": lambda n: play(
        behind_each(map(corner, range(n // 3)), "drain", "flush"),
        lines(network(2, PAIR, cache=65_536)),
        [corners()],
    ),
    "expire, packet, drain, flush: it comes again": lambda n: cached(
        n // 5,
        (row for k in range(n // 5) for row in ("expire,s1,0", corner(k), "drain", "flush")),
    ),
    "expire, deliver, deliver: a full cache": (875, going_round),
}


# ---- updates

BIG = subnets(Random(7), 2000)
OTHERS = [f"{k},any,any,any,any,udp,drop" for k in range(3001, 5001)]
FLUSHED = behind_each(each("update", [2, 1] * 31 + [2]), "flush")


def updates(*files, first=BIG, net=TWO, after=()):
    """Updates by these files in turn, after these rows."""
    numbers = range(2, 2 + len(files))
    return lambda n: play([*after, *(each("update", numbers) * n)[:n]], net, [first, *files])


REFUSED = {
    "refused by 24: a row is absent": updates(change([*range(1, 2000), 9999], [])),
    "refused by 25: a row is there": updates(
        change(range(3, 1003), [BIG.split("\n")[1], *OTHERS[:999]])
    ),
    "refused by 26: more than 2,000 rows": updates(change([], OTHERS)),
    "refused by 12: words": updates(WIDE),
    "refused by 14: leaves": updates(HOSTS, first=ONE, net=lines(network(2, PAIR, leaf_rules=1))),
    "refused by 15: room": updates(HOSTS, first=ONE, net=lines(network(2, PAIR, room=1000))),
    "refused by 16: eight versions live": updates(HOSTS),
    "refused by 17: 64 versions": updates(HOSTS, after=FLUSHED),
    "refused by 24, 26 and 12 in turn": updates(change([9999], []), change([], OTHERS), WIDE),
}


def versions(make, net=TWO):
    """So many policies after the first, each of which becomes a version."""
    return lambda n: play(
        behind_each(each("update", range(2, n + 2)), "flush"), net, map(make, range(n + 1))
    )


def one_row(k):
    """A policy, or a change that puts a row in the place of another."""
    return change([k], [f"{k},10.{k}.77.0/24,any,any,any,udp,out:0"]) if k else BIG


FEW = 499  # rows beside the last: of 2,000 the tables of 64 versions take 1.7 GB


def last_row(k):
    """A policy whose rows no cut parts; another one differs in the last row."""
    return policy([*fields(FEW), f"4000,any,any,any,{k},any,out:1"])


def refused_after_each(n):
    """After each of so many updates by a change of an action, 62 others would have one leaf too
    many."""
    whole = in_512_parts()
    files = [change([1], [whole.split("\n")[1].replace("out:0", "drop")])]
    files += [change([], [f"{5000 + k},any,0.0.0.0/10,any,{k},tcp,out:0"]) for k in range(1, 63)]
    turn = [*each("update", range(2, 65)), "flush"]
    return play(turn * n, all_hold(3), [whole, *files])


UPDATES = {
    "policies of 2,000 rows, no event": (
        8, lambda n: play([], TWO, [subnets(Random(k), 2000) for k in range(n + 1)])
    ),
    "policies of 2,000 rows, updates": (8, versions(lambda k: subnets(Random(k), 2000))),
    "policies, 64 switches, 256 links": (8, versions(lambda k: blocks(1900 + k), MESH)),
    "policies, no cut parts many rows": (8, versions(last_row, all_hold(175))),
    "policies of 512 parts": (4, versions(lambda k: few_parts(1536 - k), all_hold(3))),
    "changes of one row": (8, versions(one_row)),
    "updates, 62 refused after each": (2, refused_after_each),
}


# ---- the other commands


def trace(numbers):
    """A trace of packets with these numbers, four lines each."""
    for k in numbers:
        yield f"row 1: {packet(k % 65_536).replace(',', ' ')}"
        yield f"  entered {k} s1\n  decided {k} v1 rule 1 out:1 cache 1\n  out {k} port 1"


def audit_updates(n):
    text = lines(f"row 1: update {k}\n  submitted file {k} version {k}" for k in range(2, n + 2))
    return audit(text, [subnets(Random(k), 2000) for k in range(n + 1)])


def plan(make, cap, *words):
    """A command that reads a policy of so many rows, and cuts it into parts of at most so many
    rules."""
    command, *more = words
    line = [command, "p.csv", *more, "--net", "n.toml"]
    return lambda n: Input(line, {"p.csv": make(n), "n.toml": all_hold(cap(n))})


def ranges(rows):
    """So many rows of two words each."""
    return policy(f"{k},10.{k >> 8}.{k & 255}.0/24,any,any,1-2,any,drop" for k in range(rows))


OTHER = {
    "audit, packets": lambda n: audit(lines(trace(range(1, n // 4 + 1)))),
    "audit, the last packet first": lambda n: audit(lines(trace(falling(n // 4)))),
    "flows of one port": lambda n: play(packets(n, 0), TWO, [HERE], "flows"),
    "flows of 64 ports": lambda n: play([*anywhere(n - 1), "drain"], MESH, [ALL_PORTS], "flows"),
    "rebalance": lambda n: play(
        behind_each(anywhere(n // 2), "drain"), MESH, [blocks(2000)], "rebalance"
    ),
    "audit, policies of 2,000 rows": (8, audit_updates),
    "load": (100, lambda n: Input(["load", str(n)], {})),
    "compile, subnets": (
        500, plan(lambda n: subnets(Random(n), n), lambda n: 32, "compile")
    ),
    "compile, rows of two words": (500, plan(ranges, lambda n: 8192, "compile")),
    "compile, scattered rows": (
        250, plan(lambda n: scattered(Random(n), n), lambda n: n // 25, "compile")
    ),
    "compile, no cut parts many rows": (
        500, plan(lambda n: policy(fields(n)), lambda n: n * 7 // 20, "compile")
    ),
    "compile, 3 rows a part": (384, plan(few_parts, lambda n: 3, "compile")),
    "show, 3 rows a part": (384, plan(few_parts, lambda n: 3, "show", "s7")),
}


JUDGED = "crash, restart", "deliveries, the last message first", "resends to the hub of 64"


# ---- long texts


def refused_schedule(text):
    return Input(["replay", "s.csv", "p.csv"], {"s.csv": text, "p.csv": ONE}, 3)


SWITCH = '\n[[switch]]\nname = "a"\nports = [1]\nauthority = 9\n'
TEXTS = {
    "a schedule, one field, bytes": lambda n: refused_schedule("a" * n),
    "a schedule, a row of empty fields, bytes": lambda n: refused_schedule(
        "event,arguments\n" + "," * n
    ),
    "a schedule, doubled quotes, bytes": lambda n: refused_schedule(
        'event,arguments\n"' + '""' * (n // 2) + '"'
    ),
    "a schedule, blank lines, bytes": lambda n: refused_schedule(
        "event,arguments\n" + "\n" * n + "a"
    ),
    "a network, a comment, bytes": lambda n: of_network("#" + "a" * n + SWITCH, 0),
    "a network, a text, bytes": lambda n: of_network(f'a = "{"a" * n}"' + SWITCH, 0),
    "a network, a key, bytes": lambda n: of_network("a" * n + " = 1" + SWITCH, 0),
    "a network, an array, bytes": lambda n: of_network(f"a = [{'1,' * (n // 2)}]" + SWITCH, 0),
    "a network, a dotted key, bytes": lambda n: of_network("a." * (n // 2) + "a = 1" + SWITCH),
    "a network, nested arrays, bytes": lambda n: of_network(f"a = {'[' * n}"),
    "a network, keys in one line, bytes": lambda n: of_network(
        f"a = {{{','.join(f'k{k}=1' for k in range(n // 10))}}}" + SWITCH, 0
    ),
    "a network, keys, bytes": lambda n: of_network(
        lines(f"k{k}=1" for k in range(n // 10)) + SWITCH, 0
    ),
    "a network, empty switches, bytes": lambda n: of_network(f"switch = [{'{},' * (n // 3)}]"),
    "a trace, one word, bytes": lambda n: audit("nothing" * (n // 7) + "\n", status=1),
    "a trace, a line of blanks, bytes": lambda n: audit("row " + " " * n + "\n"),
    "a trace, a number, bytes": lambda n: audit("  entered " + "0" * n + " s1\n", status=1),
}

BYTES = 100_000
TEXTS = {name: (BYTES, make) for name, make in TEXTS.items()}
PLAIN = {
    **PACKETS, **MESSAGES, **CRASHES, **LINKS, **CACHES, **REFUSED, **UPDATES, **OTHER, **TEXTS
}
