"""A packet as a row of a schedule says it."""
from typing import NamedTuple

from readers.common import address_text, protocol_text

WITH_PORTS = {6, 17, 33, 132, 136}  # TCP, UDP, DCCP, SCTP and UDP-Lite


class Packet(NamedTuple):
    """A header in numbers; the ports are 0 where the protocol has none."""

    source: int
    target: int
    sport: int
    dport: int
    protocol: int

    def row(self, switch):
        """The row of a schedule by which the packet enters at the switch."""
        addresses = f"{address_text(self.source)},{address_text(self.target)}"
        ports = f"{self.sport},{self.dport},{protocol_text(self.protocol)}"
        return f"packet,{switch},{addresses},{ports}"
