#!/usr/bin/env python3
"""Opens pages of desk/view in a browser: `checks/view_check.py [--shots FOLDER]`.

Of each example with a journal it compares what the page says: how the packets ended, and the lines
of each packet, with the text of the journal; the state after each row with that of
`model/slow_replay.py`. It moves the slider by keys, by the field and from mark to mark, clicks a
packet, chooses filters, saves packets as CSV, and reads the policy's rows with their counts. Each
control must have a name, and the page must ask for nothing else. No table may be cut at any width,
and no link of random networks (those of `checks/desk_layout.py`) may run through a switch. Last it
opens a journal of more than 100,000 lines, which must take less than three seconds. With --shots
each page is also stored as a picture. Without a browser it says so, and ends with 0.
"""
import json
import re
import subprocess
import sys
import tempfile
from itertools import combinations, takewhile
from pathlib import Path

import browser
import desk_layout
import journal_text
import view_parts

HOME = Path(__file__).resolve().parent.parent
sys.path.insert(0, str(HOME / "model"))

import large_case
import row_states

EXAMPLES, VIEW = HOME / "examples", HOME / "desk/view"
PACKETS, LINES, SECONDS = 4500, 100_000, 3
TURNS = 3  # how often the large page is opened; the shortest time counts, as others work here too
NETWORKS = 20  # of random ones, whose drawings are looked at
LEFT, RIGHT, HOME_KEY, ENTER = ("ArrowLeft", 37), ("ArrowRight", 39), ("Home", 36), ("Enter", 13)
SPELLED = {"up": "up", "✕ down": "down", "✕ not opened": "closed"}

ENDS = """Object.fromEntries([...document.querySelectorAll("#ends div")].map((one) =>
  [one.dataset.end, Number(one.querySelector("dd").textContent)]))"""
STATE = """(() => ({
  at: document.querySelector("#state-title .at").textContent,
  switches: [...document.querySelectorAll("#switches tbody tr")].map((row) =>
    [...row.children].map((cell) => cell.textContent)),
  drawn: [...document.querySelectorAll("#nodes .node")].map((node) =>
    [...node.querySelectorAll("text")].map((text) => text.textContent)),
  crossed: document.querySelectorAll("#links .off").length,
  down: document.getElementById("down").textContent,
  waiting: document.getElementById("waiting").textContent,
  messages: [...document.querySelectorAll("#messages .line")].map((line) => line.textContent),
}))()"""
STATES = """(() => { const slider = document.getElementById("row"), found = [];
  for (let k = 0; k <= Number(slider.max); k += 1) { slider.value = k;
    slider.dispatchEvent(new Event("input")); found.push(%s); } return found; })()""" % STATE
CHOSEN = """[...document.querySelectorAll("#packet-lines li")].map((one) =>
  [Number(one.querySelector("button").textContent), one.querySelector(".line").textContent])"""
BOXES = """[...document.querySelectorAll("#nodes rect")].map((box) =>
  ["x", "y", "width", "height"].map((name) => Number(box.getAttribute(name))))"""
TITLE = 'document.getElementById("packet-title").textContent'
FOUND = 'document.getElementById("found").textContent'
CONTROLS = ("button", "slider", "spinbutton", "combobox", "checkbox", "textbox", "link")


class Case:
    """A folder with a journal, and the page that desk/view makes of it."""

    def __init__(self, folder, page):
        self.folder, self.page = folder, page
        self.text = (folder / "journal.txt").read_text()
        with open(page, "w", encoding="utf-8") as file:
            subprocess.run([VIEW, folder], stdout=file, check=True)

    def address(self, asked=""):
        return f"{self.page.as_uri()}#{asked}"

    def packets(self):
        return re.findall(r"^  (?:entered|closed) (\d+)", self.text, re.M)

    def lines(self):
        return self.text.splitlines()

    def world(self):
        """The network of the model before the first row, and the rows."""
        later = (self.folder / f"policy{number}.csv" for number in range(2, 65))
        policies = [self.folder / "policy.csv", *takewhile(Path.is_file, later)]
        net = self.folder / "net.toml"
        world = row_states.world_of(net if net.is_file() else None, policies)
        return world, row_states.rows_of(self.folder / "schedule.csv")


def state_said(page):
    """The state that a page shows, in the plain values of the model's."""
    switches = {}
    for name, phase, boot, stamp, tables, cached, packets in page["switches"]:
        switches[name] = {
            "phase": SPELLED[phase],
            "boot": int(boot),
            "stamp": int(stamp.removeprefix("v")) if stamp != "-" else None,
            "tables": [int(text) for text in re.findall(r"v(\d+)", tables)],
            "cached": int(cached),
            "packets": int(packets),
        }
    down = [] if page["down"] == "none" else [text.split() for text in page["down"].split(", ")]
    sent = [int(line.split()[1]) for line in page["messages"]]
    return {"switches": switches, "down": sorted(map(sorted, down)), "waiting": sent}


def state_wanted(world):
    """What the page should show of the model's state: no stamp of a switch that doesn't serve."""
    state = row_states.state_of(world)
    for switch in state["switches"].values():
        switch["cached"] = len(switch.pop("cache"))
        if switch["phase"] != "up":
            switch["stamp"] = None
    return state


def drawing_faults(page):
    """What the drawing says otherwise than the tables."""
    for row, (name, inside, below) in zip(page["switches"], page["drawn"]):
        up = row[1] == "up"
        wanted = f"{row[3]} · {row[5]} cached" if up else row[1]
        packets = re.search(r"(\d+) packets?$", below)
        if (name, inside, packets[1] if packets else "0") != (row[0], wanted, row[6]):
            yield f"{page['at']}: the drawing has {name} {inside} {below}"
    if page["crossed"] != len(page["down"].split(", ")) * (page["down"] != "none"):
        yield f"{page['at']}: the drawing has {page['crossed']} links that are down"


def state_faults(case, view):
    """The rows of the slider after which the page shows another state than the model has."""
    world, rows = case.world()
    wanted = {"before the first row": state_wanted(world)}
    for row, told in row_states.told(world, rows):
        if told:
            wanted[f"after row {row}"] = state_wanted(world)
    states = view.evaluate(STATES)
    if [page["at"] for page in states] != list(wanted):
        yield "the slider has other rows than the journal"
    for page in states:
        if state_said(page) != wanted.get(page["at"]):
            yield f"{page['at']} the page shows {state_said(page)}"
        waiting = len(wanted[page["at"]]["waiting"])
        if page["waiting"].split(":")[0] != (str(waiting) if waiting else "none"):
            yield f"{page['at']} {page['waiting']} wait, and not {waiting}"
        yield from drawing_faults(page)


def end_faults(case, view):
    """How the packets ended, by the page and by the text."""
    said, wanted = view.evaluate(ENDS), journal_text.ends(case.text)
    if said.pop("packets") != len(case.packets()):
        yield "another number of packets"
    if {end: count for end, count in said.items() if count or end in wanted} != wanted:
        yield f"the packets ended {said}, and not {wanted}"


def packet_faults(case, view, packet):
    """The lines of the packet that is chosen."""
    lines, numbers = case.lines(), journal_text.packet_lines(case.text, packet)
    wanted = [[number, lines[number - 1]] for number in numbers]
    said = view.evaluate(CHOSEN)
    if said != wanted:
        yield f"packet {packet} has the lines {said}"
    end = journal_text.outcomes(case.text)[packet][1] or "travelling"
    if view.evaluate(TITLE) != f"Packet {packet}: {end}":
        yield f"the title of packet {packet} is {view.evaluate(TITLE)}"


def filter_faults(case, view):
    """How many packets each filter leaves."""
    outcomes = journal_text.outcomes(case.text)
    rules, versions = {}, {}
    for packet, version, rule in re.findall(r"^  decided (\d+) v(\d+) rule (\S+)", case.text, re.M):
        rules[packet], versions[packet] = rule, version
    was_at = {}
    for packet, name in re.findall(r"^  (?:entered|closed|hopped) (\d+) (\S+)$", case.text, re.M):
        was_at.setdefault(packet, set()).add(name)
    tests = {
        "end": lambda packet, value: (outcomes[packet][1] or "travelling") == value,
        "switch": lambda packet, value: value in was_at[packet],
        "rule": lambda packet, value: rules.get(packet) == value,
        "version": lambda packet, value: versions.get(packet) == value,
    }
    for name, test in tests.items():
        values = f"[...document.querySelector('[name={name}]').options].map((one) => one.value)"
        for value in filter(None, view.evaluate(values)):
            view_parts.choose(view, name, value)
            wanted = sum(test(packet, value) for packet in outcomes)
            said = view.evaluate(FOUND)
            if said.split(" of ")[-1].split()[0] != (str(wanted) if wanted else "no"):
                yield f"{name} {value} leaves {said}, and not {wanted}"
        view_parts.choose(view, name, "")


def hand_faults(case, view):
    """The slider by keys, a packet by the mouse and by keys, and the address by name."""
    view.evaluate('document.getElementById("row").focus()')
    view.press(*HOME_KEY)
    if view.evaluate(view_parts.AT) != "before the first row":
        yield f"the key Home leads to {view.evaluate(view_parts.AT)}"
    view.press(*RIGHT)
    first = re.match(r"row (\d+)", case.text)[1]
    if view.evaluate(view_parts.AT) != f"after row {first}":
        yield f"an arrow leads to {view.evaluate(view_parts.AT)}"
    view.press(*LEFT)
    for packet in case.packets()[:1]:
        view.click(f'tr[data-packet="{packet}"] td:nth-child(4)')
        yield from packet_faults(case, view, packet)
    for packet in case.packets()[1:2]:
        view.evaluate(f"document.querySelector('tr[data-packet=\"{packet}\"] button').focus()")
        view.press(*ENTER)
        yield from packet_faults(case, view, packet)


def network_faults(case, view):
    """The drawing of a random network, and of the path of its packet."""
    links = re.findall(r'ends = \["(\S+)", "(\S+)"\]', (case.folder / "net.toml").read_text())
    view.open(case.address("packet=1"))
    yield from view_parts.drawn_faults(view, links)
    yield from box_faults(view)
    yield from view_parts.width_faults(view)
    yield from view.complaints()


def box_faults(view):
    """Switches that overlap, or are outside of the drawing."""
    boxes = view.evaluate(BOXES)
    wide, high = view.evaluate("data.size")
    for one, two in combinations(boxes, 2):
        if abs(one[0] - two[0]) < one[2] and abs(one[1] - two[1]) < one[3]:
            yield f"switches overlap at {one} and {two}"
    for x, y, width, height in boxes:
        if x < 0 or y < 0 or x + width > wide or y + height > high:
            yield f"a switch is outside of the drawing, at {x} {y}"


def name_faults(view):
    """Each control has a name that a reader of the screen can say."""
    for node in view.call("Accessibility.getFullAXTree")["nodes"]:
        role = node.get("role", {}).get("value")
        if role in CONTROLS and not node.get("name", {}).get("value") and not node.get("ignored"):
            yield f"a {role} has no name"


def example_faults(case, view):
    """All that is compared of an example."""
    view.open(case.address())
    yield from end_faults(case, view)
    yield from state_faults(case, view)
    for packet in case.packets():
        view.evaluate(f"document.querySelector('tr[data-packet=\"{packet}\"] button').click()")
        yield from packet_faults(case, view, packet)
    yield from filter_faults(case, view)
    yield from hand_faults(case, view)
    yield from view_parts.mark_faults(case, view)
    yield from view_parts.policy_faults(case, view)
    yield from view_parts.saved_faults(case, view)
    yield from name_faults(view)
    yield from box_faults(view)
    yield from view_parts.width_faults(view)
    row = re.findall(r"^row (\d+)", case.text, re.M)[-1]
    view.open(case.address(f"row={row}&packet={(case.packets() or ['0'])[-1]}"))
    for packet in case.packets()[-1:]:
        yield from packet_faults(case, view, packet)
    yield from view.complaints()


def large_faults(case, view):
    """How long the page of a large journal takes, and a few of the things that it says."""
    count = len(case.lines())
    spent = min(view.open(case.address()) for _ in range(TURNS))
    size = case.page.stat().st_size / 1e6
    print(f"{count} lines, a page of {size:.1f} MB: open after {spent:.2f} s")
    if count < LINES or spent > SECONDS:
        yield f"{count} lines open after {spent:.2f} s"
    yield from end_faults(case, view)
    middle = case.packets()[PACKETS // 2]
    row = re.search(rf"^row (\d+): .*\n  entered {middle} ", case.text, re.M)[1]
    view.open(case.address(f"row={row}&packet={middle}"))
    yield from packet_faults(case, view, middle)
    yield from box_faults(view)
    page, (world, rows) = view.evaluate(STATE), case.world()
    for number, _ in row_states.told(world, rows):
        if number == int(row):
            break
    if page["at"] != f"after row {row}" or large_state(page) != large_wanted(world):
        yield f"{page['at']} the page shows another state than the model's"
    yield from view.complaints()


def large_state(page):
    """The state without the list of messages, of which a page shows only the first ones."""
    waiting = page["waiting"].split(":")[0]
    return {**state_said(page), "waiting": 0 if waiting == "none" else int(waiting)}


def large_wanted(world):
    state = state_wanted(world)
    return {**state, "waiting": len(state["waiting"])}


def check(cases, view, shots):
    """Compares each page; its faults by name."""
    for name, case, faults_of in cases:
        faults = list(faults_of(case, view))
        print(f"{name}: {len(faults)} faults")
        print("".join(f"  {fault[:300]}\n" for fault in faults[:5]), end="")
        if shots:
            view.shoot(shots / f"{name}.png")
        yield from faults


def main():
    if sys.argv[1:] and (len(sys.argv) != 3 or sys.argv[1] != "--shots"):
        sys.exit(__doc__)
    path = browser.program()
    if path is None:
        print("no browser is here, so no page is opened; Debian's package chromium has one")
        return
    shots = Path(sys.argv[2]) if sys.argv[1:] else None
    with tempfile.TemporaryDirectory(prefix="pages-") as name:
        pages = Path(name)
        cases = [
            (one.parent.name, Case(one.parent, pages / f"{one.parent.name}.html"), example_faults)
            for one in sorted(EXAMPLES.glob("*/journal.txt"))
        ]
        for seed in range(NETWORKS):
            folder = pages / f"network{seed}"
            folder.mkdir()
            desk_layout.write(seed, folder)
            cases.append((folder.name, Case(folder, pages / f"{seed}.html"), network_faults))
        large_case.make(pages / "large", PACKETS)
        cases.append(("large", Case(pages / "large", pages / "large.html"), large_faults))
        view = browser.Browser(path)
        try:
            faults = list(check(cases, view, shots))
        finally:
            view.close()
    sys.exit(bool(faults))


if __name__ == "__main__":
    main()
