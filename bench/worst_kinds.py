"""The kinds of inputs of `bench/rows.py` that are meant to be dear: each call that an input's bytes
reach has its worst ones. Keys of one hash, nested prefixes, many masks, links that are found down
one after another, tables that differ in their last rule, and so on."""
from itertools import count, islice
from random import Random

from plans import dotted, subnets
from row_inputs import (
    HERE, HUB, MESH, ONE, PAIR, TWO, Input, all_hold, anywhere, audit, behind_each, blocks,
    change, each, few_parts, fields, lines, network, of_network, packet, packets, play, policy,
)
from row_kinds import BYTES, FEW, SWITCH, cached, corners, versions

# ---- keys of one hash: whoever knows the seed of std's `FoldHasher` finds them

SEED, FACTOR = 0x243F6A8885A308D3, 0x9E3779B97F4A7C15


def folded(state, taken, length):
    """The hasher's state after so many bytes more."""
    product = (state ^ taken) * (FACTOR ^ 2 * length)
    return (product ^ product >> 64) & 2**64 - 1


def group(state, groups):
    return (state ^ state >> 32) & groups - 1


def numbers():
    """Numbers that lie in one group of a map of up to 1,024 groups."""
    for number in count(1):
        if group(folded(SEED, number | number << 32, 4), 1024) == 0:
            yield number


def port(number):
    return number & 255 | (number >> 8) * 0x10100


def ports():
    """The ports of headers that lie in one group of a map of up to 512 groups."""
    state = folded(SEED, 0x0A000001_0A000001, 4)
    state = folded(state, 0x0A000002_0A000002, 4)
    for sport in range(65_536):
        after = folded(state, port(sport), 2)
        for dport in range(65_536):
            if group(folded(folded(after, port(dport), 2), 0x060606, 1), 512) == 0:
                yield sport, dport


def flows_of_one_group(n):
    """Half of the packets have headers of their own, and the others that of the last one."""
    rows = [f"packet,s0,10.0.0.1,10.0.0.2,{one},{two},tcp" for one, two in islice(ports(), n // 2)]
    return play([*rows, *[rows[-1]] * (n // 2)], TWO, [HERE], "flows")


# The low half of the value of a cache word of version 1 by which the hasher's state becomes 0.
LOW = folded(SEED, 2**32 + 1, 8) + 16
BEHIND = f"{LOW >> 24 & 65_535},{LOW >> 8 & 65_535},{LOW & 255}"
OF_ODD_ONES = [k for k in range(2048) if k.bit_count() % 2 == 1]


def above(k):
    """A destination whose number ends as that half begins."""
    return dotted(k << 24 | LOW >> 40 & 0xFFFFFF)


def one_hash():
    """A policy by which each of 262,144 headers has a cache rule of its own, all of one hash."""
    sources = (dotted(10 << 24 | k) for k in range(2048) if k.bit_count() % 2 == 0)
    rows = [f"{k},{source},any,any,any,any,drop" for k, source in enumerate(sources, 300)]
    return policy([*rows, *(f"{k},any,{above(k)},{BEHIND},out:0" for k in range(256))])


def of_one_hash(k):
    source = dotted(10 << 24 | OF_ODD_ONES[k % 1024])
    return f"packet,s1,{source},{above(k // 1024)},{BEHIND}"


def cache_of_one_hash(n):
    rows = [of_one_hash(k) for k in range(n // 2)]
    net = lines(network(2, PAIR, cache=65_536))
    return play([*rows, "drain", "flush", *rows], net, [one_hash()])


def with_keys(rows):
    """So many rows whose priorities lie in one group."""
    own = zip(islice(numbers(), rows), count())
    return policy(f"{key},10.{k >> 8}.{k & 255}.0/24,any,any,any,any,out:0" for key, k in own)


def compiled(text, net=TWO):
    return Input(["compile", "p.csv", "--net", "n.toml"], {"p.csv": text, "n.toml": net})


def refused_changes(rows):
    """16 changes that remove so many rows, and one that is absent."""
    removed = list(islice(numbers(), rows - 1))
    files = [change([*removed, k], []) for k in range(2 * removed[-1], 2 * removed[-1] + 16)]
    return play(each("update", range(2, 18)), TWO, [with_keys(rows), *files])


COLLIDING = {
    "cache rules of one hash": (1_000, cache_of_one_hash, "rows x entries"),
    "flows of one group": (1_000, flows_of_one_group, "rows x entries"),
    "a policy, priorities of one group": (500, lambda n: compiled(with_keys(n))),
    "changes, priorities of one group": (500, refused_changes),
}


# ---- packets: nested prefixes, many masks, long routes, links that are found down

SHAPES = [(a, b) for a in range(33) for b in range(33)]


def nested(rows):
    """So many rows whose blocks of addresses all begin at 0.0.0.0, each of lengths of its own."""
    return policy(
        f"{2000 - k},0.0.0.0/{a},0.0.0.0/{b},any,{2000 - k},any,drop"
        for k, (a, b) in enumerate(SHAPES[:rows])
    )


def narrow_row(rng):
    """A row of small blocks of addresses and a short range of ports."""
    src, dst = (f"10.0.0.{rng.randrange(256)}/{rng.randrange(24, 33)}" for _ in range(2))
    low, high = sorted((rng.randrange(64), rng.randrange(64)))
    return f"{src},{dst},{low}-{high},{rng.choice(['any', rng.randrange(64)])},any,drop"


def many_masks():
    """A policy whose cache rules for TCP have many masks, with a row for UDP above all others."""
    rng = Random(4)
    rows = [f"{3000 - k},{narrow_row(rng)}" for k in range(600)]
    return policy(["9999,any,any,any,any,udp,drop", *rows])


def low(rng):
    """A packet that lies in most of the nested prefixes."""
    ends = rng.randrange(4), rng.randrange(4), rng.randrange(65_536)
    return "packet,s1,0.0.0.{},0.0.0.{},1,{},udp".format(*ends)


def any_packet(rng):
    ends = (rng.randrange(256), rng.randrange(256), rng.randrange(64), rng.randrange(64))
    return "packet,s1,10.0.0.{},10.0.0.{},{},{},tcp".format(*ends)


def learnt(text, make, rows):
    """Half of the packets fill a cache, and these rows follow."""

    def play_of(n):
        rng = Random(9)
        first = [make(rng) for _ in range(n // 2)]
        net = lines(network(2, PAIR, cache=65_536))
        return play([*first, "drain", "flush", *rows(rng, n // 2)], net, [text])

    return play_of


def again(make):
    return lambda rng, number: [make(rng) for _ in range(number)]


def expiries(rng, number):
    return [f"expire,s1,{rng.randrange(number)}" for _ in range(number)]


def missing(rng, number):
    return ["packet,s1,10.0.0.1,10.0.0.1,1,1,udp"] * number


LINE = lines(network(64, [(k, k + 1) for k in range(63)], authorities=[63]))
LONG = "aaaaaaaaaaaaaa"


def long_names(n):
    """Packets at the last of 64 switches whose names differ in their last letters."""
    rows = [row.replace(",s", f",{LONG}") for row in packets(n, 63)]
    return play(rows, HUB.replace('"s', f'"{LONG}'))


def chords_down(n):
    """Packets that know of all links, of which only those of a ring are up."""
    down = [f"linkdown,s{k},s{(k + step) % 64}" for step in (3, 7, 15) for k in range(64)]
    return play([*down, *behind_each(anywhere(n // 2), "drain")], MESH)


def standing(n):
    """Packets are at 64 switches, which crash and come back in turn."""
    rows = [row for k in range(n // 4) for row in (f"crash,s{k % 64}", f"restart,s{k % 64}")]
    return play([*anywhere(n // 2), *rows], MESH)


def in_turn(n):
    """Packets on a line move on in turn."""
    few = n // 32
    hops = [f"hop,{k % few + 1}" for k in range(n - few)]
    return play([*packets(few, 0), *hops], LINE)


TRAVELLING = {
    "packets, nested prefixes": (1_000, learnt(nested(1089), low, again(low))),
    "packets, a cache of many masks": (
        1_000, learnt(many_masks(), any_packet, again(any_packet)), "rows x entries"
    ),
    "packets, none of many masks is theirs": (
        1_000, learnt(many_masks(), any_packet, missing), "rows x entries"
    ),
    "expiries at random places": (1_000, learnt(many_masks(), any_packet, expiries)),
    "packets, 512 parts": (
        1_000,
        lambda n: play(behind_each(anywhere(n // 2), "drain"), all_hold(3), [few_parts(1536)]),
    ),
    "packets at the last of 64 long names": (1_000, long_names),
    "packets that are stuck": (
        1_000, lambda n: play(["linkdown,s0,s1", *packets(n - 1)])
    ),
    "packet, drain: a line of 64 switches": (
        250, lambda n: play(behind_each(packets(n // 2, 0), "drain"), LINE, [HERE])
    ),
    "hops in turn: a line of 64 switches": (1_000, in_turn),
    "packets find links down: 256 links": (200, chords_down),
    "packets stand, 64 switches crash": (1_000, standing),
}


# ---- updates: tables that are alike, changes that touch all, many acknowledgements

def last_rule(k):
    """A policy whose rows no cut parts; another one differs in the row of the least priority."""
    return policy([*fields(FEW), f"0,any,any,any,{k},any,out:1"])


def touching_all(k):
    """A policy, or a change that puts 20 rows in the places of others."""
    if k == 0:
        return corners()
    removed = range(20 * k - 20 + 1000, 20 * k + 1000) if k > 1 else []
    added = (f"{20 * k + j + 1000},any,any,any,{20 * k + j},{k},drop" for j in range(20))
    return change(removed, added)


def one_port(k):
    """A policy, or a change of a row that none of its packets matches."""
    if k == 0:
        return corners()
    return change([4000 + k] if k > 1 else [], [f"{4001 + k},any,any,any,{60_000 + k},47,drop"])


def carried(make, number=60):
    """So many cache rules, and this number of changes after them."""

    def play_of(n):
        rows = behind_each(each("update", range(2, number + 2)), "flush")
        made = cached(n, rows)
        files = {f"p{k}.csv": make(k) for k in range(number + 1)}
        words = ["replay", "s.csv", *files, "--net", "n.toml"]
        return Input(words, made.files | files)

    return play_of


SEVEN = each("update", range(2, 9))
EIGHT = [blocks(200 + k) for k in range(8)]


def leaves_again(n):
    """Seven updates wait, and each leaf of a star sends again in turn."""
    again_ = [f"resend,s{k % 63 + 1}" for k in range(n)]
    return play([*SEVEN, *again_], HUB, EIGHT)


def answers_falling(n):
    """64 switches have the tables of seven versions; their answers come, the last first."""
    tables, answers = range(1, 7 * 64 + 1), list(range(14 * 64, 7 * 64, -1))
    rows = [*SEVEN, *each("deliver", tables)]
    return play([*rows, *(each("deliver", answers) * n)[:n]], HUB, EIGHT)


ALIKE = {
    "policies, the last rules differ": (8, versions(last_rule, all_hold(175))),
    "60 changes, a cache is carried": (1_000, carried(one_port)),
    "60 changes that touch all, a cache": (1_000, carried(touching_all)),
    "installations, delivered again": (
        1_000,
        lambda n: play(["update,2", *["deliver,1"] * n], TWO, [ONE, subnets(Random(5), 2000)]),
    ),
    "7 updates wait, 63 leaves send again": (250, leaves_again),
    "acknowledgements, the last first": (1_000, answers_falling),
    "flows, 512 parts": (
        1_000,
        lambda n: play(
            behind_each(anywhere(n // 2), "drain"), all_hold(3), [few_parts(1536)], "flows"
        ),
    ),
    "rebalance, 512 parts": (
        1_000,
        lambda n: play(
            behind_each(anywhere(n // 2), "drain"), all_hold(3), [few_parts(1536)], "rebalance"
        ),
    ),
}


# ---- traces, plans and networks

INVERSE = pow(2_654_435_769, -1, 2**32)  # of the factor of the index of `audit`


def decided(sources):
    """A trace of packets from these sources that match no row."""
    for k, source in enumerate(sources, 1):
        yield f"row 1: packet s0 {source} 0.0.0.1 1 0 tcp"
        yield f"  entered {k} s0"
        yield f"  decided {k} v1 rule default drop authority s0 part 0"
        yield f"  dropped {k}"


def audit_nested(rows):
    """Packets that lie in most of the nested blocks."""
    return audit(lines(decided(["0.0.0.1"] * 2_000)), [nested(rows)])


def audit_one_slot(rows):
    """So many rows in one slot of the index, in which those of the packets are sought."""
    slot = [dotted(k * INVERSE % 2**32) for k in range(rows + 2_000)]
    own = policy(f"{k},{source},any,any,any,any,drop" for k, source in enumerate(slot[:rows]))
    return audit(lines(decided(slot[rows:])), [own])


def audit_changes(n):
    """So many changes of 1,000 rows each."""
    first = policy(f"{k},any,any,any,{k},any,drop" for k in range(1, 1001))
    files = [
        change(range(1000 * k - 999, 1000 * k + 1), (
            f"{1000 * k + j},any,any,any,{j},any,drop" for j in range(1, 1001)
        ))
        for k in range(1, n + 1)
    ]
    told = (f"row 1: update {k}\n  submitted file {k} version {k}" for k in range(2, n + 2))
    return audit(lines(told), [first, *files])


def ranges_of_900(n):
    """So many rows of 900 words each."""
    return policy(f"{k},any,any,1-65534,1-65534,{k},drop" for k in range(n))


def of_lines(line):
    """A network of so many bytes in lines that are made of numbers from 0."""

    def made(n):
        each_ = len(line(10_000)) + 1
        return of_network(SWITCH + lines(line(k) for k in range(n // each_)), 0)

    return made


DEEP = ".".join("a" * 40)
OTHERS = {
    "audit, rows of nested prefixes": (272, audit_nested),
    "audit, rows in one slot": (500, audit_one_slot),
    "audit, changes of 1,000 rows": (8, audit_changes),
    "compile, nested prefixes": (
        272, lambda n: compiled(nested(n), all_hold(n // 4))
    ),
    "compile, rows of 900 words": (1, lambda n: compiled(ranges_of_900(n), all_hold(900))),
    "a network, tables, bytes": (BYTES, of_lines(lambda k: f"[k{k:05}]")),
    "a network, tables of one table, bytes": (BYTES, of_lines(lambda k: f"[a.k{k:05}]")),
    "a network, an array of tables, bytes": (BYTES, of_lines(lambda k: "[[a]]")),
    "a network, keys of 41 parts, bytes": (BYTES, of_lines(lambda k: f"{DEEP}.k{k:05}=1")),
    "a network, keys that fall, bytes": (BYTES, of_lines(lambda k: f"k{99_999 - k:05}=1")),
}


WORST = {**COLLIDING, **TRAVELLING, **ALIKE, **OTHERS}
WORST_JUDGED = "60 changes, a cache is carried", "packets stand, 64 switches crash"
