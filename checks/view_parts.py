"""What `checks/view_check.py` looks at beside the state: marks, the policy's rows, CSV, widths, lines.

Each function gives the faults of one part of the page that the browser shows.
"""
import csv
import io
import json
import re

import desk_layout
import journal_text

WIDTHS = (600, 900, 1100, 1300, 1400, 1500, 1700)  # of windows
AT = 'document.querySelector("#state-title .at").textContent'
DRAWN = """({
  boxes: [...document.querySelectorAll("#nodes .node")].map((node) => [node.dataset.switch,
    ["x", "y", "width", "height"].map((name) =>
      Number(node.querySelector("rect").getAttribute(name)))]),
  lines: [...document.querySelectorAll("#links .link, #path .hop")].map((one) => [
    one.dataset.ends.split(" "), one.classList.contains("hop"),
    (one.querySelector("polyline") || one).getAttribute("points")]) })"""
MARKS = """[...document.querySelectorAll("#marks line")].map((one) =>
  [one.getAttribute("class"), one.textContent])"""
POLICY = """[...document.querySelectorAll("#policy tbody tr")].map((row) =>
  [...row.children].map((cell) => cell.textContent))"""
SAVED = """(() => { let kept; const make = URL.createObjectURL, of = HTMLAnchorElement.prototype;
  const click = of.click; URL.createObjectURL = (blob) => { kept = blob; return ""; };
  of.click = () => {}; document.getElementById("save").click();
  URL.createObjectURL = make; of.click = click; return kept.text(); })()"""
TEXTS = """[...document.querySelectorAll("#nodes .node")].flatMap((node) =>
  [...node.querySelectorAll(".name, .inside")].map((text) => [text.textContent,
    text.getComputedTextLength() - node.querySelector("rect").getAttribute("width")]))"""
CUT = """[...document.querySelectorAll(".wide")].filter((one) =>
  one.scrollWidth > one.clientWidth + 1).map((one) => one.querySelector("table").id)"""
KINDS = {"update": "update", "crash": "switch", "restart": "switch", "linkdown": "link",
         "linkup": "link"}


def choose(view, name, value):
    view.evaluate(f"""(() => {{ const one = document.querySelector('[name={name}]');
      one.value = {json.dumps(value)};
      one.dispatchEvent(new Event("change", {{ bubbles: true }})); }})()""")


def mark_faults(case, view):
    """The marks of the slider, the buttons from mark to mark, and the field of the row."""
    events = re.findall(rf"^(row (\d+): ({'|'.join(KINDS)})\b.*)", case.text, re.M)
    told = [tuple(mark) for mark in view.evaluate(MARKS)]
    if not {*told} <= {(KINDS[kind], line) for line, _, kind in events}:
        yield f"there are the marks {told}"
    if not {KINDS[kind] for _, _, kind in events} == {kind for kind, _ in told}:
        yield f"only marks of {told}"
    view.evaluate('(() => { const one = document.getElementById("go"); one.value = 0;'
                  'one.dispatchEvent(new Event("change")); })()')
    rows = sorted({int(row) for _, row, _ in events})
    for button, order in (("mark-after", rows), ("mark-before", rows[-2::-1])):
        for row in order:
            view.evaluate(f'document.getElementById("{button}").click()')
            if view.evaluate(AT) != f"after row {row}":
                yield f"{button} leads to {view.evaluate(AT)}, and not to row {row}"
    for row in {int(row) for row in re.findall(r"^row (\d+)", case.text, re.M)[-2:]}:
        view.evaluate(f'(() => {{ const one = document.getElementById("go"); one.value = {row};'
                      'one.dispatchEvent(new Event("change")); })()')
        if view.evaluate(AT) != f"after row {row}":
            yield f"the field leads to {view.evaluate(AT)}, and not to row {row}"


def policy_faults(case, view):
    """The rows of each version's policy with the packets that they decided."""
    used = journal_text.rules(case.text)
    values = '[...document.getElementById("policy-version").options].map((one) => one.value)'
    for version in view.evaluate(values):
        view.evaluate(f'''(() => {{ const one = document.getElementById("policy-version");
          one.value = "{version}"; one.dispatchEvent(new Event("change")); }})()''')
        said = {}
        for packets, authority, cache, rule, _ in view.evaluate(POLICY):
            said[version, rule, "authority"], said[version, rule, "cache"] = map(int, (authority, cache))
            if int(packets) != int(authority) + int(cache):
                yield f"row {rule} of version {version} has {packets} packets"
        wanted = {key: count for key, count in used.items() if key[0] == version}
        if {key: count for key, count in said.items() if count} != wanted:
            yield f"the rows of version {version} decided {said}"


def saved_faults(case, view):
    """The packets as CSV: all, and those of some rows."""
    wanted = [row_wanted(case.text, packet) for packet in case.packets()]
    rows = [int(row["row"]) for row in wanted]
    some = [(str(rows[len(rows) // 2]), str(rows[-1]))] if rows else []
    for first, last in [("", ""), *some]:
        choose(view, "from", first)
        choose(view, "to", last)
        found = list(csv.DictReader(io.StringIO(view.evaluate(SAVED))))
        said = [{name: row[name] for name in wanted[0]} for row in found] if wanted else found
        if said != [row for row in wanted if not first or int(first) <= int(row["row"]) <= int(last)]:
            yield f"the packets of the rows {first} to {last} are saved as {said}"
    choose(view, "from", "")
    choose(view, "to", "")


def row_wanted(text, packet):
    """What the text of the journal says of a packet, as the saved file has it."""
    came = re.search(rf"^row (\d+): packet (.*)\n  (?:entered|closed) {packet} ", text, re.M)
    ingress, *header = came[2].split()
    decided = re.search(rf"^  decided {packet} v(\d+) rule (\S+) (\S+) (\S+ \S+)", text, re.M)
    version, rule, action, by = decided.groups() if decided else ("", "", "", "")
    port = re.search(rf"^  out {packet} port (\d+)", text, re.M)
    way = [ingress, *re.findall(rf"^  hopped {packet} (\S+)", text, re.M)]
    return {
        "packet": packet, "row": came[1], "in": ingress,
        **dict(zip(("src", "dst", "sport", "dport", "proto"), header)),
        "version": version, "rule": rule, "action": action, "by": by,
        "end": journal_text.outcomes(text)[packet][1] or "travelling",
        "port": port[1] if port else "", "path": " ".join(way),
    }


def width_faults(view):
    """Tables that are cut in a window of some width."""
    for width in WIDTHS:
        view.call("Emulation.setDeviceMetricsOverride", width=width, height=1000,
                  deviceScaleFactor=1, mobile=False)
        yield from (f"the table {one} is cut at {width} px" for one in view.evaluate(CUT))
    view.call("Emulation.clearDeviceMetricsOverride")


def drawn_faults(view, links):
    """Links and hops that run through switches, as the browser draws them."""
    said = view.evaluate(DRAWN)
    boxes = {name: (x, y, x + wide, y + high) for name, (x, y, wide, high) in said["boxes"]}
    lines = [("hop" if hops else "link", ends, desk_layout.points_in(points))
             for ends, hops, points in said["lines"]]
    yield from desk_layout.faults_of(boxes, lines, links)
    yield from (f"{text} runs out of its box" for text, over in view.evaluate(TEXTS) if over > -4)
