#!/usr/bin/env python3
"""Checks `desk/traffic`, and the samples of all ways in: `checks/desk_in.py [SEED]`.

- Each line of the samples' index.txt is a name, a status and arguments. What the script writes is
  compared with expected/NAME.csv or NAME.toml, and what it says with expected/NAME.txt.
- Random captures, of both formats, both orders of bytes and four link types, are compared with the
  rows that were drawn; so are lines as tcpdump prints them, and flows. Where tcpdump is installed,
  its text of the captures is read too.
- Files that are cut off or aren't readable end with 0 or 2, and with no trace of Python.

It ends with 1 where anything differs. Of the scripts it uses nothing but their output.
"""
import random
import re
import shutil
import struct
import subprocess
import sys
import tempfile
from pathlib import Path

from desk_kit import EXAMPLES, HEADERS, HOME, SAMPLES, dotted, run

CAPTURES, DAMAGED = 12, 20
ENDINGS = {"topology": ".toml"}


# ---- samples


def sample_faults(script, folder):
    """What a script does with the samples of a folder other than expected."""
    for line in (folder / "index.txt").read_text().splitlines():
        name, status, *args = line.split()
        got = run(script, *args, cwd=folder)
        files = [folder / "expected" / f"{name}{ending}" for ending in (ENDINGS.get(script, ".csv"), ".txt")]
        rows, said = [path.read_bytes() if path.exists() else b"" for path in files]
        if got != (int(status), rows, said.decode()):
            yield f"desk/{script} {' '.join(args)}: other than expected/{name}"


def play_faults():
    """Whether the slow model plays a sample's schedule under a sample's policy."""
    rows = SAMPLES["traffic"] / "expected/office-drained.csv"
    policy = SAMPLES["policy"] / "expected/hosts.csv"
    model = [sys.executable, str(HOME / "model/slow_replay.py"), str(rows), str(policy)]
    model += ["--net", str(EXAMPLES / "campus/net.toml")]
    done = subprocess.run(model, capture_output=True, text=True)
    entered = len(re.findall(r"^  entered ", done.stdout, re.M))
    ended = len(re.findall(r"^  (?:out|dropped) ", done.stdout, re.M))
    packets = rows.read_text().count("packet,")
    if done.returncode or not entered == ended == packets:
        yield f"of {packets} packets of a sample {entered} entered and {ended} ended"


# ---- captures


def drawn_packet(rng):
    """An IPv4 packet, and the fields that its row is to have after the switch, or nothing."""
    protocol = rng.choice([1, 2, 6, 6, 6, 17, 17, 47, 50, 89, 132])
    words, fragment = rng.choice([5, 5, 6, 9]), rng.choice([0, 0x4000, 0x4000, 0x2000, 0x2005, 7])
    ends = [10 << 24 | rng.getrandbits(24), 10 << 24 | rng.getrandbits(24)]
    ports = [rng.getrandbits(16), rng.getrandbits(16)]
    bodies = {
        1: struct.pack("!BBHHH", 8, 0, 0, 1, 1),
        6: struct.pack("!HHIIBBHHH", *ports, 1, 0, 0x50, 2, 1024, 0, 0),
        17: struct.pack("!HHHH", *ports, 8, 0),
        132: struct.pack("!HHIIBBH", *ports, 0, 0, 11, 0, 4),
    }
    body = bodies.get(protocol, bytes(24))
    head = struct.pack(
        "!BBHHHBBH", 0x40 | words, 0, 4 * words + len(body), 9, fragment, 64, protocol, 0
    )
    packet = head + struct.pack("!II", *ends) + bytes(4 * words - 20) + body
    if fragment & 0x1FFF:
        return packet, None
    names = {1: "icmp", 6: "tcp", 17: "udp"}
    shown = ports if protocol in (6, 17, 132) else [0, 0]
    fields = [*map(dotted, ends), *shown, names.get(protocol, protocol)]
    return packet, ",".join(map(str, fields))


def framed(rng, link, packet):
    """A frame of this link type around a packet of IPv4, or around something else for nothing."""
    kind = 0x0800 if packet else rng.choice([0x86DD, 0x0806])
    body = packet or (b"\x60" if kind == 0x86DD else b"\0") + bytes(47)
    if link == 101:
        return packet or b"\x60" + bytes(47)
    if link == 276:
        return struct.pack("!HHIHBB8s", kind, 0, 1, 1, 0, 6, b"") + body
    tags = rng.choice([(), (0x8100,), (0x88A8, 0x8100)])
    tags = b"".join(struct.pack("!HH", tag, rng.getrandbits(12)) for tag in tags)
    if link == 113:
        return bytes(14) + struct.pack("!H", kind) + body
    return bytes(12) + tags + struct.pack("!H", kind) + body


def classic(rng, link, frames):
    """A classic capture of these frames."""
    order, magic = rng.choice("<>"), rng.choice([0xA1B2C3D4, 0xA1B23C4D])
    data = struct.pack(order + "IHHiIII", magic, 2, 4, 0, 0, 65535, link)
    for frame in frames:
        data += struct.pack(order + "IIII", 1, 2, len(frame), len(frame)) + frame
    return data


def section(rng, link, frames):
    """A section of a pcapng file with one interface."""
    order = rng.choice("<>")

    def block(kind, body):
        body += bytes(-len(body) % 4)
        size = len(body) + 12
        return struct.pack(order + "II", kind, size) + body + struct.pack(order + "I", size)

    data = block(0x0A0D0D0A, struct.pack(order + "IHHq", 0x1A2B3C4D, 1, 0, -1))
    data += block(1, struct.pack(order + "HHI", link, 0, 65535))
    for frame in frames:
        if rng.random() < 0.2:
            data += block(5, struct.pack(order + "III", 0, 0, 0))
        kind = rng.choice([2, 3, 6])
        heads = {
            2: struct.pack(order + "HHIIII", 0, 0, 0, 0, len(frame), len(frame)),
            3: struct.pack(order + "I", len(frame)),
            6: struct.pack(order + "IIIII", 0, 0, 0, len(frame), len(frame)),
        }
        data += block(kind, heads[kind] + frame)
    return data


def capture(rng, seed):
    """A capture, the rows of its packets, and whether tcpdump reads it."""
    data, rows = b"", []
    parts = 1 + seed % 3 if seed % 2 else 1
    for _ in range(parts):
        link, frames = rng.choice([1, 1, 1, 101, 113, 276]), []
        for _ in range(60):
            packet, fields = drawn_packet(rng) if rng.random() < 0.9 else (None, None)
            frames.append(framed(rng, link, packet))
            rows += [f"packet,s0,{fields}"] if fields else []
        data += section(rng, link, frames) if seed % 2 else classic(rng, link, frames)
    return data, rows, parts == 1


def capture_faults(rng, folder):
    """What differs between captures and their rows, or those of tcpdump's text."""
    path, text = folder / "capture", folder / "text"
    for seed in range(CAPTURES):
        data, rows, is_plain = capture(rng, seed)
        path.write_bytes(data)
        wanted = "".join(f"{row}\n" for row in ["event,arguments", *rows, "drain"]).encode()
        if run("traffic", path)[:2] != (0, wanted):
            yield f"capture {seed}: other rows than were drawn"
        for flags in ([], ["-v"], ["-e"]) if is_plain and shutil.which("tcpdump") else ():
            with text.open("wb") as file:
                dump = ["tcpdump", "-nn", *flags, "-r", str(path)]
                subprocess.run(dump, stdout=file, stderr=subprocess.DEVNULL, check=True)
            if run("traffic", text)[:2] != (0, wanted):
                yield f"capture {seed}: other rows by tcpdump -nn {' '.join(flags)}"


def dump_line(fields):
    """A packet's line as tcpdump -nn prints it."""
    source, target, sport, dport, protocol = fields.split(",")
    rests = {"icmp": "ICMP echo request, id 1, seq 1, length 8", "2": "igmp v2 report 224.0.0.1"}
    rests |= {"47": "GREv0, length 24: unknown", "50": "ESP(spi=0x1,seq=0x1), length 24"}
    rests |= {"tcp": "Flags [S], seq 1, win 1024, length 0", "udp": "UDP, length 0"}
    rests |= {"132": "sctp (1) [COOKIE ACK]", "89": "OSPFv2, Hello, length 24"}
    has_ports = protocol in ("tcp", "udp", "132")
    ends = f"{source}.{sport} > {target}.{dport}" if has_ports else f"{source} > {target}"
    return f"07:06:40.123456 IP {ends}: {rests[protocol]}"


def text_faults(rng, folder):
    """What differs between lines of tcpdump, or flows, and the rows that they were drawn from."""
    drawn = [fields for _, fields in (drawn_packet(rng) for _ in range(HEADERS)) if fields]
    rows = ["event,arguments", *(f"packet,s0,{fields}" for fields in drawn), "drain"]
    heading = "Src IP,Dst IP,Src Port,Dst Port,Protocol"
    texts = {"tcpdump's lines": map(dump_line, drawn), "flows": [heading, *drawn]}
    for name, lines in texts.items():
        (folder / "text").write_text("".join(f"{line}\n" for line in lines))
        if run("traffic", folder / "text")[:2] != (0, "\n".join([*rows, ""]).encode()):
            yield f"{name}: other rows than were drawn"


# ---- files that can't be read


def damaged_faults(rng, folder):
    """Files that are cut off or changed, and that end otherwise than with 0 or 2."""
    path = folder / "damaged"
    for _ in range(DAMAGED):
        script = rng.choice(list(SAMPLES))
        files = sorted(file for file in SAMPLES[script].iterdir() if file.is_file())
        data = bytearray(rng.choice(files).read_bytes())
        for _ in range(rng.randrange(8)):
            data[rng.randrange(len(data))] = rng.getrandbits(8)
        path.write_bytes(data[: rng.randrange(len(data) + 1)])
        args = ["--permit", "drop"] if script == "policy" else []
        status, rows, said = run(script, path, *args)
        is_refused = status == 2 and not rows and said.count("\n") == 1
        if status != 0 and not is_refused:
            kept = shutil.copy(path, tempfile.gettempdir())
            yield f"desk/{script} {kept}: status {status}: {said[-200:]}"


def main():
    if len(sys.argv) > 2 or sys.argv[1:] in (["-h"], ["--help"]):
        sys.exit(__doc__)
    seed = sys.argv[1] if sys.argv[1:] else "1"
    rng = random.Random(seed)
    faults = [*play_faults()]
    for script, folder in SAMPLES.items():
        faults += sample_faults(script, folder)
    with tempfile.TemporaryDirectory() as name:
        faults += capture_faults(rng, Path(name))
        faults += text_faults(rng, Path(name))
        faults += damaged_faults(rng, Path(name))
    if not shutil.which("tcpdump"):
        print("tcpdump isn't installed: its text of the random captures is not compared")
    print("\n".join(faults) or "samples, captures and damaged files: all as expected")
    sys.exit(bool(faults))


main()
