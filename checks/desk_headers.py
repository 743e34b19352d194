"""Which headers a row of a policy has, by the functions of `model/plan_model.py`."""
import sys
from pathlib import Path

sys.path.append(str(Path(__file__).resolve().parent.parent / "model"))

import plan_model


def blocks_of(fields):
    """Of each field the words of its values, by the slow model's functions."""
    src, dst, sport, dport, proto = fields[1:6]
    return [[plan_model.address(src)], [plan_model.address(dst)], [*plan_model.blocks(sport)],
            [*plan_model.blocks(dport)], [plan_model.PROTOCOLS[proto]]]


def is_in(value, words):
    return any((value ^ word[0]) & word[1] == 0 for word in words)


def has(fields, header):
    """Whether the row has the header."""
    return all(map(is_in, header, blocks_of(fields)))


def numbers_of(header):
    texts = [header[name] for name in ("src", "dst", "sport", "dport", "proto")]
    names = {"icmp": "1", "tcp": "6", "udp": "17"}
    addresses = (int.from_bytes(bytes(map(int, text.split(".")))) for text in texts[:2])
    return *addresses, int(texts[2]), int(texts[3]), int(names.get(texts[4], texts[4]))


def first_row(rules, header):
    return next((row[0] for row in rules if has(row, header)), "default")
