"""What a journal says of its packets, line by line."""
TRAVELLING = "travelling"
ENDS = ["out", "dropped", "lost", "stuck", "closed", TRAVELLING]
HEADER = ["src", "dst", "sport", "dport", "proto"]
OF_PACKET = {*"entered tunnelled hopped found rerouted decided exit".split(), *ENDS}
OF_MESSAGE = {*"sent delivered forgotten expired".split()}


class Packet:
    """A packet: its header, where it entered, who decided it, where it is, how it ended."""

    def __init__(self, asked, item):
        self.number, self.row = item.said["packet"], item.row
        self.ingress = self.at = item.said["switch"]
        self.header = {name: asked[name] for name in HEADER}
        self.decision = self.version = self.target = self.port = None
        self.end, self.end_row, self.cause, self.unusable = TRAVELLING, None, "", []
        self.stood, self.found = [self.ingress], []

    def bound_for(self):
        """Where it is bound for, or was at its end."""
        leg = f"port {self.decision['action'].removeprefix('out:')}" if self.decision else None
        at = f" at {self.target}" if self.target else ""
        return (leg or "an authority") + at

    def finish(self, item, cause="", unusable=()):
        """It ended, for this cause; these links and switches couldn't be used then."""
        self.end, self.end_row, self.cause = item.kind, item.row, cause
        self.unusable = list(unusable)


class Play:
    """A journal as far as it was followed: its packets by number, and its network."""

    def __init__(self, network):
        self.packets, self.network = {}, network
        self.asked, self.decided, self.meters = {}, None, {}

    def follow(self, item):
        """Does what the item says; the name of the switch that it changed, if any."""
        changed = self.network.follow(item)
        act = ACTS.get(item.kind)
        if act:
            act(self, item)
        return changed

    def packet(self, item):
        """The packet of which the item tells."""
        number = item.said["packet"]
        if number not in self.packets:
            raise item.mistake(f"no packet {number} entered before")
        return self.packets[number]

    def about(self, item):
        """The number of the packet of which the item tells, or of whose cache rule, or None."""
        if item.kind in OF_PACKET:
            return item.said["packet"]
        if item.kind in OF_MESSAGE:
            return self.network.message(item).packet
        return None

    def on_row(self, item):
        self.asked = item.said

    def on_entered(self, item):
        if self.asked.get("event") != "packet":
            raise item.mistake("no row brought a packet in")
        if item.said["packet"] in self.packets:
            raise item.mistake(f"packet {item.said['packet']} entered before")
        self.packets[item.said["packet"]] = Packet(self.asked, item)

    def on_closed(self, item):
        """It ended before it entered, since its switch is down or not yet opened."""
        self.on_entered(item)
        ends = [item.said["switch"]] * 2
        self.packet(item).finish(item, ", ".join(self.network.unusable(ends)))

    def on_tunnelled(self, item):
        self.packet(item).target = item.said["route"][-1]

    on_exit = on_rerouted = on_tunnelled

    def on_hopped(self, item):
        packet = self.packet(item)
        packet.at = item.said["switch"]
        packet.stood.append(packet.at)

    def on_found(self, item):
        ends = item.said["switch"], item.said["other"]
        self.packet(item).found.append((*ends, item.row, self.network.unusable(ends)))

    def on_decided(self, item):
        packet = self.packet(item)
        packet.version = self.network.version(item)
        if item.said["by"] == "cache" and self.network.message(item).body != "cache":
            raise item.mistake(f"message {item.said['message']} is not a cache rule")
        packet.decision = {"row": item.row, **item.said}
        packet.target, self.decided = None, packet.number

    def on_sent(self, item):
        if item.said["body"] == "cache":
            self.network.message(item).packet = self.decided

    def on_out(self, item):
        packet = self.packet(item)
        packet.port = item.said["port"]
        packet.finish(item)

    def on_dropped(self, item):
        self.packet(item).finish(item)

    def on_lost(self, item):
        """A row `lose` names the packet; otherwise its switch crashed."""
        packet = self.packet(item)
        crashed = f"the switch {packet.at} crashed, where it was"
        packet.finish(item, "the schedule says so" if self.asked["event"] == "lose" else crashed)

    def on_meter(self, item):
        self.meters[item.said["port"]] = item.said["count"]

    def on_stuck(self, item):
        self.packet(item).finish(item, item.said["cause"], self.network.unusable())


ACTS = {name.removeprefix("on_"): act for name, act in vars(Play).items() if name[:3] == "on_"}
