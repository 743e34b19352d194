"""Spells words, the bit patterns of headers, in the fields of Open vSwitch."""
PROTOCOLS = {1: "icmp", 6: "tcp", 17: "udp"}
ADDRESSES = {"nw_src": 72, "nw_dst": 40}  # the lowest bit of each in a word
PORTS = {"tp_src": 24, "tp_dst": 8}


def bits_of(word, low, width):
    """The value and the mask of a field of the word, whose lowest bit has this number."""
    value, mask = (int(half, 16) for half in word.split("/"))
    return value >> low & (1 << width) - 1, mask >> low & (1 << width) - 1


def dotted(number):
    return ".".join(map(str, number.to_bytes(4, "big")))


def is_prefix(mask, width):
    """Whether the bits of the mask are its highest ones."""
    free = (1 << width) - 1 ^ mask
    return free & free + 1 == 0


def address(value, mask):
    """An address, a prefix, or an address with a mask of any bits."""
    if mask == 2**32 - 1:
        return dotted(value)
    tail = mask.bit_count() if is_prefix(mask, 32) else dotted(mask)
    return f"{dotted(value)}/{tail}"


def port(value, mask):
    """A port, or the value and the mask of its bits."""
    return str(value) if mask == 2**16 - 1 else f"{value:#x}/{mask:#x}"


def protocol(value, mask):
    """`tcp`, `ip`, or `ip` and the protocol's number or bits."""
    if mask == 0:
        return "ip"
    if mask == 255:
        return PROTOCOLS.get(value, f"ip,nw_proto={value}")
    return f"ip,nw_proto={value:#x}/{mask:#x}"


def match_of(word):
    """The word as a match: `tcp,nw_dst=10.0.2.10,tp_dst=443`."""
    parts = [protocol(*bits_of(word, 0, 8))]
    for fields, width, spell in ((ADDRESSES, 32, address), (PORTS, 16, port)):
        for name, low in fields.items():
            value, mask = bits_of(word, low, width)
            parts += [f"{name}={spell(value, mask)}"] if mask else []
    return ",".join(parts)


def ranges_of(word):
    """The ranges of ports that the match spells by bits: `tp_src 1024-2047`."""
    for name, low in PORTS.items():
        value, mask = bits_of(word, low, 16)
        if 0 < mask < 2**16 - 1 and is_prefix(mask, 16):
            yield f"{name} {value}-{value | 2**16 - 1 ^ mask}"


def spelled(word):
    """The match, and after it the ranges of its ports."""
    return "; ".join([match_of(word), *ranges_of(word)])
