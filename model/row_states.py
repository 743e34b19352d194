"""What `model/slow_replay.py` has in its network after each row of a schedule."""
import csv
import tomllib
from pathlib import Path

import slow_replay


def world_of(net, policies):
    """The network before the first row; without a network file it is the switch s0."""
    path = Path(net) if net else None
    text = tomllib.loads(path.read_text("utf-8-sig")) if path else slow_replay.SOLO
    return slow_replay.World(text, policies)


def rows_of(schedule):
    with open(schedule, newline="") as file:
        return [row for row in csv.reader(file) if row][1:]


def play_row(world, row, kind, *fields):
    """Plays one row of a schedule; what it tells is added to the world's journal."""
    if kind in ("drain", "flush"):
        getattr(world, kind)(row)
    else:
        world.step(row, kind, *fields)


def told(world, rows):
    """For each row its number, and the lines that it adds to the journal."""
    for row, fields in enumerate(rows, 1):
        before = len(world.journal.lines)
        play_row(world, row, *fields)
        yield row, world.journal.lines[before:]


def state_of(world):
    """The state of the world in plain values."""
    standing = [packet.at() for packet in world.all_travelling()]
    return {
        "switches": {
            world.network.names[switch.number]: {
                "phase": "down" if not switch.up else "up" if switch.open else "closed",
                "boot": switch.boot,
                "stamp": switch.stamp,
                "tables": sorted(switch.tables),
                "cache": [entry.message for entry in switch.cache],
                "packets": standing.count(switch.number),
            }
            for switch in world.switches
        },
        "down": sorted(
            sorted(world.network.names[end] for end in ends)
            for ends, is_up in world.is_link_up.items()
            if not is_up
        ),
        "waiting": waiting_in(world.journal),
    }


def waiting_in(journal):
    """The messages that were neither delivered nor forgotten."""
    numbers = range(1, len(journal.messages) + 1)
    return [one for one in numbers if one not in journal.delivered | journal.forgotten]
