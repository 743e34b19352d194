#!/usr/bin/env python3
"""What `audit` says of a trace, computed independently from its definitions and slowly.

usage: model/slow_audit.py TRACE POLICY..

It prints `yes`, or on standard error the line of status 1, with which it then ends. It shares
nothing with the program: a trace is text, cut at line feeds and blanks, and a decision is the first
rule of `model/plan_model.py` that holds the header. Files that don't exist or are refused get the
line and the status that the program has for them (`model/refusals.py`).
"""
import re
import sys
from pathlib import Path

import plan_model
import slow_replay

LINE_ENDS = "it ends in CR LF, and the lines of a journal end in LF"
OTHER_FORM = "this kind of line has another form"
MOST_NUMBER, MOST_PORT, MOST_ROW, MOST_VERSIONS = 999_999_999, 2**32 - 1, 100_000, 64
SILENT = (
    "closed tunnelled exit hopped found rerouted sent delivered forgotten expired refused current "
    "booted opened down over link"
).split()


class Bad(Exception):
    """A line isn't good, and why."""


def need(holds, why):
    if not holds:
        raise Bad(why)


def number(text, most=MOST_NUMBER):
    is_digits = re.fullmatch("0|[1-9][0-9]{0,9}", text)
    need(is_digits and int(text) <= most, f"{text!r} is no number from 0 to {most}")
    return int(text)


def name(text):
    is_name = re.fullmatch("[A-Za-z][A-Za-z0-9_-]{0,15}", text) and text != "controller"
    need(is_name, f"{text!r} is no name of a switch")


def header_of(src, dst, sport, dport, proto):
    """The header of the five fields of a packet's row."""
    for address in (src, dst):
        four = len([number(part, 255) for part in address.split(".")]) == 4
        need(four, f"{address!r} is no address")
    known = plan_model.PROTOCOLS[proto][0] if proto in ("icmp", "tcp", "udp") else number(proto, 255)
    ends = plan_model.address(src)[0], plan_model.address(dst)[0]
    return plan_model.pack(*ends, number(sport, 65535), number(dport, 65535), known)


class Packet:
    def __init__(self, header, mark):
        self.header, self.mark, self.action, self.ended = header, mark, None, False


class Reader:
    """The abstract machine, and the header of a packet's row that waits for its entry."""

    def __init__(self, files):
        self.files = files
        self.policies = [files[0].of([])]
        self.rules = {}
        self.mark, self.packets, self.pending = 0, {}, None

    def rules_of(self, version):
        if version not in self.rules:
            self.rules[version] = plan_model.rules_of(self.policies[version - 1])[0]
        return self.rules[version]

    def row(self, words):
        self.pending = None
        need(words, "nothing follows the word row")
        if words[1:2] == ["packet"]:
            need(len(words) == 8 and words[0][-1:] == ":", "a row of a packet has another form")
            need(number(words[0][:-1], MOST_ROW) >= 1, "rows are counted from 1")
            name(words[2])
            self.pending = header_of(*words[3:])

    def entered(self, packet, switch):
        name(switch)
        packet = number(packet)
        need(self.pending is not None, "no row of a packet is before it")
        need(packet not in self.packets, f"packet {packet} entered before")
        self.packets[packet] = Packet(self.pending, self.mark)
        self.pending = None

    def submitted(self, first, file, second, version):
        need((first, second) == ("file", "version"), OTHER_FORM)
        file, version, due = number(file), number(version), len(self.policies) + 1
        need(1 <= file <= len(self.files), f"there is no policy file {file} here")
        need(version == due and due <= MOST_VERSIONS, f"version {due} would be next")
        try:
            self.policies.append(self.files[file - 1].of(self.policies[-1]))
        except slow_replay.Refused as refused:
            why = f"the change of file {file} can't be applied (code {refused.code})"
            raise Bad(why) from refused

    def retired(self, version):
        version, newest = number(version), len(self.policies)
        need(self.mark < version, f"version {version} was retired before")
        need(version < newest, f"version {version} isn't older than the newest, {newest}")
        self.mark = version

    def packet_of(self, text):
        """A packet that entered, and that didn't end."""
        packet = self.packets.get(number(text))
        need(packet, f"packet {text} didn't enter before")
        need(not packet.ended, f"packet {text} ended before")
        return packet

    def decided(self, packet, version, word, rule, action, how, *more):
        number_of = packet
        need(version[:1] == "v" and word == "rule" and more, OTHER_FORM)
        need(how in ("cache", "authority"), f"{how!r} is neither cache nor authority")
        version, packet = number(version[1:]), self.packet_of(packet)
        need(packet.action is None, f"packet {number_of} was decided before")
        need(version <= len(self.policies), f"version {version} wasn't submitted before")
        need(packet.mark < version, f"version {version} was retired as the packet entered")
        rules = self.rules_of(version)
        found = next(rule for rule in rules if slow_replay.holds(rule[0], packet.header))
        first = f"the first row of version {version} that the packet matches is {found[2]} {found[3]}"
        need((rule, action) == found[2:], first)
        packet.action = action

    def end(self, packet, action=None):
        """An end of a packet; of one that left or was dropped with the action of its decision."""
        text, packet = packet, self.packet_of(packet)
        if action is not None:
            was = packet.action and f"decided {packet.action}" or "not decided"
            need(packet.action == action, f"packet {text} was {was}, which isn't {action}")
        packet.ended = True

    def out(self, packet, word, port):
        need(word == "port", OTHER_FORM)
        self.end(packet, f"out:{number(port, MOST_PORT)}")

    def stuck(self, packet, *more):
        need(more, OTHER_FORM)
        self.end(packet)

    def item(self, word, args):
        moves = {
            "entered": self.entered, "submitted": self.submitted, "retired": self.retired,
            "decided": self.decided, "out": self.out, "stuck": self.stuck,
            "dropped": lambda packet: self.end(packet, "drop"), "lost": lambda packet: self.end(packet),
        }
        if word in moves:
            try:
                moves[word](*args)
            except TypeError as error:  # another number of words
                raise Bad(OTHER_FORM) from error
        elif word == "nothing":
            need(not args, OTHER_FORM)
        else:
            need(word in SILENT, f"no line of a journal begins with {word!r} after two blanks")
            need(args, OTHER_FORM)

    def line(self, text):
        first, *words = text.split(" ")
        if first == "row":
            self.row(words)
        elif first in ("meter", "quiet"):
            need(words, f"nothing follows the word {first}")
        else:
            indented = first == "" and words[:1] == [""] and len(words) > 1
            need(indented, "no line of a journal begins so")
            self.item(words[1], words[2:])


def first_bad(trace, files):
    """The number of the first bad line of a text, from 1, and what is wrong with it; or none."""
    reader = Reader(files)
    *lines, rest = trace.split("\n")
    for count, line in enumerate(lines, 1):
        try:
            reader.line(line)
        except Bad as bad:
            return count, LINE_ENDS if line.endswith("\r") else str(bad)
    return (len(lines) + 1, "the trace is cut: this line has no end") if rest else None


def found_bad(trace, *policies):
    """The first bad line of a trace, in a file, or none."""
    files = [slow_replay.read_file(path) for path in policies]
    return first_bad(Path(trace).read_bytes().decode("latin-1"), files)


def answer(trace, *policies):
    """The line of status 1, or an empty one."""
    bad = found_bad(trace, *policies)
    return f"difane: no line {bad[0]}" if bad else ""


def main():
    import refusals  # it reads files as the program does, and asks this module of the trace

    if len(sys.argv) < 3:
        sys.exit(__doc__)
    line, status = refusals.answer(["audit", *sys.argv[1:]])
    print(line or "yes", file=sys.stderr if line else sys.stdout)
    sys.exit(status)


if __name__ == "__main__":
    main()
