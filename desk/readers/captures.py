"""Reads capture files: classic pcap and pcapng, of Ethernet, raw IP and Linux's `any`.

The formats are those of the drafts draft-ietf-opsawg-pcap and draft-ietf-opsawg-pcapng. Packets are
numbered from 1, as by `tcpdump -#` and Wireshark.
"""
import struct

from readers.common import Refused, Unsaid
from readers.packets import Packet, WITH_PORTS

CLASSIC = {b"\xa1\xb2\xc3\xd4": ">", b"\xd4\xc3\xb2\xa1": "<",
           b"\xa1\xb2\x3c\x4d": ">", b"\x4d\x3c\xb2\xa1": "<"}
SECTION = b"\x0a\x0d\x0d\x0a"
ORDERS = {b"\x1a\x2b\x3c\x4d": ">", b"\x4d\x3c\x2b\x1a": "<"}
INTERFACE, OLD_PACKET, SIMPLE_PACKET, ENHANCED_PACKET = 1, 2, 3, 6
MAX_BLOCK = 1 << 24  # a longer record or block is no packet's
LINKS = {1: (12, 14), 113: (14, 16), 276: (0, 20)}  # where the type is, and what follows it
RAW = {12, 14, 101, 228, 229}
TAGS = {0x8100, 0x88A8, 0x9100, 0x9200}
IPV4, IPV6 = 0x0800, 0x86DD
LEAST_TYPE = 0x0600  # what is smaller is the length of a frame of IEEE 802.3
KINDS = {IPV6: "IPv6", 0x0806: "ARP", 0x8847: "MPLS", 0x8864: "PPPoE", 0x88CC: "LLDP"}
MORE_FRAGMENTS, OFFSET = 0x2000, 0x1FFF
CUT = "the packet is cut short"
ENDS = "the file ends or is damaged there"
LEAST = {INTERFACE: 8, SIMPLE_PACKET: 4, OLD_PACKET: 20, ENHANCED_PACKET: 20}


def is_capture(start):
    """Whether a file that begins with these four bytes is a capture."""
    return start in CLASSIC or start == SECTION


def packets_of(file, start):
    """Each packet's number, and the packet or why it is left out; `start` was read before."""
    frames = sections(file) if start == SECTION else records(file, CLASSIC[start])
    for number, (link, data) in enumerate(frames, 1):
        try:
            if data is None:
                raise Unsaid(ENDS)
            yield number, packet_in(link, data)
        except Unsaid as why:
            yield number, why


def records(file, order):
    """The link type and the bytes of each packet of a classic capture; no bytes where it ends."""
    head = file.read(20)
    if len(head) < 20:
        raise Refused("the capture ends within its header")
    link = struct.unpack(order + "HHiIII", head)[5] & 0xFFFF
    while head := file.read(16):
        size = struct.unpack(order + "4I", head)[2] if len(head) == 16 else 0
        data = file.read(size) if size <= MAX_BLOCK else b""
        if len(head) < 16 or len(data) < size:
            yield link, None
            return
        yield link, data


def blocks(file):
    """The order of bytes, the type and the body of each block of a pcapng file.

    The type of the first one was read before. A last block that isn't whole has no body.
    """
    order, kind = "", SECTION
    while kind:
        rest = file.read(8) if kind == SECTION else file.read(4)
        if kind == SECTION:
            order = ORDERS.get(rest[4:], "")
        if len(rest) < 4 or not order:
            yield order, SIMPLE_PACKET, None
            return
        number, size = struct.unpack(order + "II", (kind + rest)[:8])
        wanted = size - 4 - len(rest)
        body = file.read(wanted) if 0 < wanted <= MAX_BLOCK else b""
        if len(body) < wanted or wanted <= 0:
            yield order, number, None
            return
        yield order, number, body[:-4]
        kind = file.read(4)
        if 0 < len(kind) < 4:
            yield order, SIMPLE_PACKET, None
            return


def sections(file):
    """The link type and the bytes of each packet of a pcapng file; no bytes where it ends."""
    links, limit = [], 0
    for order, kind, body in blocks(file):
        if body is None or len(body) < LEAST.get(kind, 0):
            yield None, None
        elif kind == int.from_bytes(SECTION, "big"):
            links = []
        elif kind == INTERFACE:
            link, limit = struct.unpack_from(order + "HxxI", body)
            links.append((link, limit))
        elif kind in (OLD_PACKET, SIMPLE_PACKET, ENHANCED_PACKET):
            yield framed(order, kind, body, links)


def framed(order, kind, body, links):
    """The link type and the bytes of the packet of a block."""
    if kind == SIMPLE_PACKET:
        size, = struct.unpack_from(order + "I", body)
        interface, start = 0, 4
        limit = links[0][1] if links else 0
        size = min(size, limit or size)
    else:
        form = "IxxxxxxxxI" if kind == ENHANCED_PACKET else "HxxxxxxxxxxI"
        interface, size = struct.unpack_from(order + form, body)
        start = 20
    if interface >= len(links) or start + size > len(body):
        return None, None
    return links[interface][0], body[start : start + size]


def packet_in(link, data):
    """The packet in a frame of this link type."""
    if link in RAW:
        if not data:
            raise Unsaid(CUT)
        kind, start = (IPV6 if data[0] >> 4 == 6 else IPV4), 0
    elif link in LINKS:
        place, start = LINKS[link]
        kind = half(data, place)
        while kind in TAGS:
            kind, start = half(data, start + 2), start + 4
    else:
        raise Unsaid(f"the link type {link} isn't supported")
    if kind != IPV4:
        other = "802.3" if kind < LEAST_TYPE else f"of the type 0x{kind:04x}, not IPv4"
        raise Unsaid(KINDS.get(kind, other))
    return packet_at(data, start)


def half(data, place):
    """The number in two bytes, the higher one first."""
    if len(data) < place + 2:
        raise Unsaid(CUT)
    return data[place] << 8 | data[place + 1]


def packet_at(data, start):
    """The IPv4 packet (RFC 791) that begins at this place."""
    if len(data) < start + 20:
        raise Unsaid(CUT)
    first, size, fragment, protocol, source, target = struct.unpack_from(
        "!BxHxxHxBxxII", data, start
    )
    if first >> 4 != 4 or first & 15 < 5:
        raise Unsaid("its header isn't IPv4")
    if fragment & OFFSET:
        raise Unsaid("a later fragment, which has no ports")
    ports = start + 4 * (first & 15)
    if protocol not in WITH_PORTS:
        return Packet(source, target, 0, 0, protocol)
    if size and size < ports - start + 4:
        raise Unsaid(CUT)
    return Packet(source, target, half(data, ports), half(data, ports + 2), protocol)
