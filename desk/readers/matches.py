"""Reads the options of a rule of iptables: which addresses, protocol and ports it matches."""
import re

from readers.common import Unsaid, address_of, prefix_of, protocol_of
from readers.packets import WITH_PORTS
from readers.rules import ALL_PROTOCOLS, ANY_ADDRESS, ANY_PORT, LAST_PORT, Rule
from readers.rules import beside, but, prefixes_of, services

MATCHES = {"tcp", "udp", "sctp", "dccp", "udplite", "multiport", "comment"}
PASSED = {"--comment": 1, "--reject-with": 1, "-c": 2}
FIELDS = {
    "-s": "sources", "-d": "targets", "-p": "protocols", "--sport": "sports", "--dport": "dports",
    "--sports": "sports", "--dports": "dports",
}


class Options:
    """What the options of a rule ask of each field of a header."""

    def __init__(self, most):
        self.most = most
        self.fields = {"sources": [ANY_ADDRESS], "targets": [ANY_ADDRESS], "protocols": [None],
                       "sports": [ANY_PORT], "dports": [ANY_PORT]}

    def read(self, words):
        words, negated = list(words), False
        while words:
            word = words.pop(0)
            if word == "!":
                negated = True
                continue
            count = PASSED.get(word, 1)
            if len(words) < count:
                raise Unsaid(f"nothing follows {word}")
            self.option(word, words[0], negated)
            del words[:count]
            negated = False

    def option(self, word, value, negated):
        """Takes an option and its first value."""
        if word in FIELDS:
            name = FIELDS[word]
            read = {"-s": self.prefixes, "-d": self.prefixes, "-p": self.protocol}
            self.fields[name] = read.get(word, self.ports)(value, negated)
        elif word == "-m" and value not in MATCHES:
            raise Unsaid(f"its match {value!r} isn't supported")
        elif word not in ("-m", "-j", *PASSED):
            raise Unsaid(f"{word!r} isn't supported")

    def prefixes(self, text, negated):
        """The prefixes of an address, with a length or with a mask, or of all other addresses."""
        address, slash, mask = text.partition("/")
        found = prefix_of(text)
        wildcard = (1 << 32 - found[1]) - 1 if found else None
        if found is None and None not in (address_of(address), address_of(mask)):
            wildcard = ~address_of(mask) & (1 << 32) - 1
        if wildcard is None:
            raise Unsaid(f"{text!r} is not an IPv4 address")
        prefixes = prefixes_of(address_of(address), wildcard, self.most)
        if negated and len(prefixes) > 1:
            raise Unsaid(f"all but {text!r} isn't supported")
        return beside(prefixes[0]) if negated else prefixes

    def protocol(self, text, negated):
        found = None if text == "all" else protocol_of(text)
        if found is None and text != "all":
            raise Unsaid(f"unknown protocol {text!r}")
        if negated:
            return [number for number in ALL_PROTOCOLS if found not in (number, None)]
        return [found or None]  # 0 is any

    def ports(self, text, negated):
        """The ranges of ports, separated by commas, or of all other ports."""
        ranges = [self.range(part) for part in text.split(",")]
        return but(ranges) if negated else ranges

    def range(self, text):
        low, colon, high = text.partition(":")
        low, high = low or "0", (high or str(LAST_PORT)) if colon else low
        if not all(re.fullmatch("[0-9]{1,5}", end) for end in (low, high)):
            raise Unsaid(f"unknown port {text!r}")
        if not int(low) <= int(high) <= LAST_PORT:
            raise Unsaid(f"{text!r} is not a range of ports")
        return int(low), int(high)

    def rule(self, permits):
        fields = self.fields
        names_ports = [fields["sports"], fields["dports"]] != [[ANY_PORT]] * 2
        if names_ports and not set(fields["protocols"]) <= WITH_PORTS:
            raise Unsaid("it names ports for a protocol without ports")
        found = services(fields["sports"], fields["dports"], fields["protocols"])
        return Rule(permits, fields["sources"], fields["targets"], found)
