"""The flows and ports of a network's bridges: one for each switch, with links and tags."""
from . import daemon, flows

TO_AUTHORITY, TO_PORT = 0, 1  # the priority bits of a packet's tag


class Net:
    """What the network's file says. A switch is its number, which is that of its bridge too."""

    def __init__(self, net):
        rows = net["switch"]
        self.names = [row["name"] for row in rows]
        self.owner = {port: at for at, row in enumerate(rows) for port in row.get("ports", [])}
        self.near = [set() for _ in rows]
        for row in net.get("link", []):
            one, other = map(self.names.index, row["ends"])
            self.near[one].add(other)
            self.near[other].add(one)
        self.toward = [self.ways_to(target) for target in range(len(rows))]

    def ways_to(self, target):
        """For each switch that can reach the target, the next one on its least shortest path."""
        ahead, level = {target: target}, [target]
        while level:
            fresh = {}
            for here in sorted(level):
                for far in self.near[here] - ahead.keys():
                    fresh.setdefault(far, here)
            ahead.update(fresh)
            level = list(fresh)
        return ahead


def tag_to_authority(version, target):
    """A tag's 12 bits say the version, from 1 to 64, and the switch."""
    return (version - 1) * 64 + target, TO_AUTHORITY


def tag_to_port(port):
    return port, TO_PORT


class Wiring:
    """The flows of one bridge of a network."""

    def __init__(self, net, here):
        self.net, self.here = net, here

    def onward(self, target):
        """The action that sends a packet over the next link to a switch; none without a route."""
        ahead = self.net.toward[target].get(self.here)
        return None if ahead is None else f"output:link{self.here}-{ahead}"

    def tagged(self, tag, target):
        """The actions that tag a packet and send it to a switch; it ends here without a route."""
        onward = self.onward(target)
        return f"mod_vlan_vid:{tag[0]},mod_vlan_pcp:{tag[1]},{onward}" if onward else "drop"

    def deciding(self, action):
        """What becomes of a packet that a rule of this action decides here."""
        if action == "drop":
            return "drop"
        port = int(action.removeprefix("out:"))
        owner = self.net.owner[port]
        if owner == self.here:
            return f"output:out{port}"
        return self.tagged(tag_to_port(port), owner)

    def asking(self, version, targets):
        """How a packet is sent to the first of its authority switches that can be reached."""
        numbers = map(self.net.names.index, targets)
        target = next((to for to in numbers if self.here in self.net.toward[to]), None)
        return "drop" if target is None else self.tagged(tag_to_authority(version, target), target)

    def passing(self, tag, target, arriving):
        """The flow for packets with a tag: what is done where they arrive, or the next link."""
        actions = arriving if target == self.here else self.onward(target)
        if actions:
            match = f"dl_vlan={tag[0]},dl_vlan_pcp={tag[1]}"
            yield flows.flow(flows.TAGGED, 0, 1, match, actions)

    def looking_up(self, version):
        """The actions that look a packet up by a version; it may leave where it entered."""
        return f"load:{version}->NXM_NX_REG3[],load:0->NXM_OF_IN_PORT[],resubmit(,1)"

    def entering(self, versions):
        """The flows of table 0: packets enter, or go from bridge to bridge with a tag."""
        for version, targets in versions.items():
            look = self.looking_up(version)
            yield flows.flow(flows.TAGGED, 0, 2, f"in_port=in{self.here}-{version}", look)
            for target in sorted(targets):
                tag = tag_to_authority(version, target)
                yield from self.passing(tag, target, f"strip_vlan,{look}")
        for port, owner in self.net.owner.items():
            yield from self.passing(tag_to_port(port), owner, f"strip_vlan,output:out{port}")

    def held(self, version, own):
        """The flows of table 2: the tables that the switch has for a version."""
        for rule in own.rules:
            match = f"reg3={version},{flows.match_of(rule.word)}"
            yield flows.rule_flow(rule, 2, match, self.deciding(rule.action))
        for region in own.elsewhere():
            match = f"reg3={version},{flows.match_of(region.word)}"
            yield flows.region_flow(region, 2, match, self.asking(version, region.targets))

    def ports(self, versions):
        """The ports of the bridge, with their settings."""
        ends = [f"in{self.here}-{version}" for version in versions]
        ends += [f"out{port}" for port, owner in self.net.owner.items() if owner == self.here]
        links = {
            f"link{self.here}-{far}": ("type=patch", f"options:peer=link{far}-{self.here}")
            for far in sorted(self.net.near[self.here])
        }
        return {**dict.fromkeys(ends, daemon.DUMMY), **links}
