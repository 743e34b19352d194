"""Reads routes: for each prefix of destinations, the port by which they leave."""
import re

from readers.common import Refused
from readers.maps import checked_prefix, pairs_of

HEADING = ["prefix", "port"]
PORT = re.compile(r"[0-9]|[1-5][0-9]|6[0-3]")


def has(prefix, other):
    """Whether all addresses of another prefix are this one's too."""
    shift = 32 - prefix[1]
    return prefix[1] <= other[1] and prefix[0] >> shift == other[0] >> shift


class Routes:
    """The port of each prefix; of the routes that have a destination the longest counts."""

    def __init__(self, name):
        self.ports = {}
        for where, text, port in pairs_of(name, HEADING):
            prefix = checked_prefix(where, text)
            if not PORT.fullmatch(port):
                raise Refused(f"{where}: {port!r} is not a port from 0 to 63")
            if prefix in self.ports:
                raise Refused(f"{where}: {text} is named before")
            self.ports[prefix] = port

    def over(self, prefix):
        """The port of the longest route that has all addresses of a prefix, or nothing."""
        found = [route for route in self.ports if has(route, prefix)]
        return self.ports[max(found, key=lambda route: route[1])] if found else None

    def parts(self, target):
        """The prefixes within a target that go by a port of their own, the longest first; after
        them the target itself. Each has its port, or nothing where no route has it."""
        inside = [route for route in self.ports if route != target and has(target, route)]
        inside.sort(key=lambda route: (-route[1], route[0]))
        return [(route, self.ports[route]) for route in inside] + [(target, self.over(target))]
