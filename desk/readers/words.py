"""The words of a line of IOS, read one after another: addresses, protocols and ports."""
from readers.common import Unsaid, prefix_of, protocol_of
from readers.packets import WITH_PORTS
from readers.rules import ANY_ADDRESS, ANY_PORT, prefixes_of, wildcard_prefixes
from readers.services import TESTS, port_of, tested

ANY_PROTOCOL = ("ip", "ipv4")


class Words:
    """The words that are still to be read; names keep their capitals, and all else is lower."""

    def __init__(self, words, most):
        self.words, self.most = list(words), most

    def next(self):
        return self.words[0].lower() if self.words else ""

    def name(self):
        """The next word as it is written."""
        if not self.words:
            raise Unsaid("it ends too early")
        return self.words.pop(0)

    def take(self):
        return self.name().lower()

    def protocol(self):
        """The number of a protocol, or nothing where it may be any."""
        word = self.take()
        found = None if word in ANY_PROTOCOL else protocol_of(word)
        if found is None and word not in ANY_PROTOCOL:
            raise Unsaid(f"unknown protocol {word!r}")
        return found

    def address(self):
        """The prefixes of an address: `any`, a host, an address with a wildcard, or a prefix."""
        word = self.take()
        if word == "any":
            return [ANY_ADDRESS]
        if word == "host":
            return [self.host()]
        found = prefix_of(word)
        if found is None:
            raise Unsaid(f"{word!r} is not an IPv4 address")
        if "/" in word:
            return prefixes_of(found[0], (1 << 32 - found[1]) - 1, 1)
        if prefix_of(self.next()) is None:
            return [found]
        return wildcard_prefixes(word, self.take(), self.most)

    def host(self):
        word = self.take()
        found = prefix_of(word)
        if found is None or "/" in word:
            raise Unsaid(f"the host {word!r} is not an IPv4 address")
        return found

    def ports(self, protocol):
        """The ranges of ports that a test allows: all where there is no test."""
        if self.next() not in TESTS:
            return [ANY_PORT]
        if protocol not in WITH_PORTS:
            raise Unsaid("it names ports for a protocol without ports")
        test, ports = self.take(), [self.port(protocol)]
        if test == "range":
            ports.append(self.port(protocol))
        while test in ("eq", "neq") and port_of(self.next(), protocol) is not None:
            ports.append(self.port(protocol))
        return tested(test, ports)

    def port(self, protocol):
        word = self.take()
        found = port_of(word, protocol)
        if found is None:
            raise Unsaid(f"unknown port {word!r}")
        return found

    def end(self, passed=()):
        """Passes over these words, and refuses what else follows the fields."""
        while self.next() in passed and self.words:
            self.take()
        if self.words:
            raise Unsaid(f"{self.next()!r} isn't supported")
