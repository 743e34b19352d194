"""What `bench/rows.py` makes its inputs of: policies, changes, networks, schedules and traces."""
from itertools import islice
from typing import NamedTuple

from plans import HEADER, in_512_parts

MOST_ROWS = 100_000  # of a schedule


class Input(NamedTuple):
    """The words of a command, the texts of its files, and the status that it must end with."""

    words: list
    files: dict
    status: int = 0


# ---- policies and networks


def lines(*parts):
    return "".join(f"{line}\n" for part in parts for line in part)


def policy(rows):
    return lines([HEADER], rows)


def change(removed, added):
    edits = [*(f"remove,{k}" for k in removed), *(f"add,{row}" for row in added)]
    return lines([f"op,{HEADER}"], edits)


def blocks(rows):
    """So many rows, each but the last for a block of sources of its own."""
    blocks = (f"{k},10.{k >> 8}.{k & 255}.0/24" for k in range(1, rows))
    own = [f"{block},any,any,any,any,out:{k % 2}" for k, block in enumerate(blocks)]
    return policy([*own, "0,any,any,any,any,any,out:1"])


def fields(rows):
    """So many rows, each of which fixes one of the five fields: no cut parts many of them."""
    block = "10.{0}.{1}.0/22"
    kinds = [f"{block},any,any,any,any", f"any,{block},any,any,any", "any,any,{2},any,any"]
    kinds += ["any,any,any,{2},any", "any,any,any,any,{3}"]
    for k in range(rows):
        n = k // 5
        row = kinds[k % 5 if n < 250 else n % 4].format(k >> 6, k << 2 & 255, k * 30, n)
        yield f"{k + 1},{row},drop"


def few_parts(rows):
    return lines(in_512_parts().splitlines()[: rows + 1])


def network(switches, links, authorities=(0,), cache=256, leaf_rules=8192, room=8192):
    yield f"leaf_rules = {leaf_rules}\ncache = {cache}"
    for k in range(switches):
        yield f'[[switch]]\nname = "s{k}"\nports = [{k}]'
        if k in authorities:
            yield f"authority = {room}"
    yield from (f'[[link]]\nends = ["s{one}", "s{two}"]' for one, two in links)


ONE = policy(["1,any,any,any,any,any,out:1"])
HERE = policy(["1,any,any,any,any,any,out:0"])  # packets leave where they enter, at s0
WIDE = policy(f"{k},any,any,1-65534,1-65534,any,drop" for k in range(5))  # 4,500 words
HOSTS = policy(f"{k},10.0.{k >> 8}.{k & 255},any,any,any,any,drop" for k in range(2000))
ALL_PORTS = policy(f"{k},any,any,any,{k},any,out:{k % 64}" for k in range(1024))

PAIR = [(0, 1)]
STAR = [(0, k) for k in range(1, 64)]
CHORDS = [(k, (k + step) % 64) for step in (1, 3, 7, 15) for k in range(64)]
TWO = lines(network(2, PAIR))
THREE = lines(network(3, STAR[:2]))
HUB = lines(network(64, STAR))
MESH = lines(network(64, CHORDS, authorities=(0, 16, 32, 48), leaf_rules=32))


def all_hold(leaf_rules):
    """A network of 64 switches with room for 8,192 rules each."""
    return lines(network(64, STAR, authorities=range(64), leaf_rules=leaf_rules))


# ---- schedules


def play(rows, net=TWO, policies=(ONE,), command="replay"):
    files = {f"p{k}.csv": text for k, text in enumerate(policies)}
    words = [command, "s.csv", *files, "--net", "n.toml"]
    schedule = lines(["event,arguments"], islice(rows, MOST_ROWS))
    return Input(words, files | {"s.csv": schedule, "n.toml": net})


def packet(k, switch=1):
    """A packet whose header is that of no other k."""
    mixed = k * 2654435761 % 2**32
    ends = f"10.{mixed >> 30}.{mixed >> 22 & 255}.{mixed >> 14 & 255},10.{k >> 16}.{k >> 8 & 255}"
    return f"packet,s{switch},{ends}.{k & 255},{1024 + mixed % 60000},{mixed % 1024},tcp"


def packets(number, switch=1):
    return [packet(k, switch) for k in range(number)]


def anywhere(number):
    """Packets at the 64 switches in turn."""
    return [packet(k, k * 29 % 64) for k in range(number)]


def behind_each(rows, *more):
    return [line for row in rows for line in (row, *more)]


def each(kind, numbers):
    return [f"{kind},{number}" for number in numbers]


def falling(number):
    return range(number, 0, -1)


def with_half(n, rows):
    """Half of the rows are packets that don't move; these follow."""
    return play([*packets(n // 2), *rows])


# ---- traces and networks


def audit(text, policies=(ONE,), status=0):
    files = {f"p{k}.csv": own for k, own in enumerate(policies)}
    return Input(["audit", "t.txt", *files], files | {"t.txt": text}, status)


def of_network(text, status=3):
    return Input(["compile", "p.csv", "--net", "n.toml"], {"p.csv": ONE, "n.toml": text}, status)
