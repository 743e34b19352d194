"use strict";
// What the page shows: a row of the schedule, a packet, filters, and a page of the table. It is
// all in the address too. The state after a row is that of all changes up to its last line.

const PAGE = 50, MOST_LINES = 300, LARGE = 8;
const FILTERS = ["end", "switch", "rule", "version", "from", "to"];
const byId = (id) => document.getElementById(id);
const data = JSON.parse(byId("data").textContent);
const lines = data.lines.split("\n");
const names = data.switches.map((one) => one.name);
const [HALF_WIDE, HALF_HIGH] = data.box;
const packets = new Map(data.packets.map((one) => [one.number, one]));
const view = { row: 0, packet: 0, page: 0, policy: "",
  ...Object.fromEntries(FILTERS.map((name) => [name, ""])) };
const state = {};

// ---- elements

function make(tag, attributes, ...children) {
  const svg = ["g", "line", "polyline", "rect", "text", "circle", "title"].includes(tag);
  const made = svg ? document.createElementNS("http://www.w3.org/2000/svg", tag)
    : document.createElement(tag);
  for (const [name, value] of Object.entries(attributes)) made.setAttribute(name, value);
  made.append(...children);
  return made;
}

function fill(id, children) {
  byId(id).replaceChildren(...children);
}

function plural(count, noun) {
  return `${count} ${noun}${count === 1 ? "" : "s"}`;
}

// ---- the state after a row

const APPLY = {
  switch: (number, values) => { state.switches[number] = values; },
  link: (number, news) => { news === "down" ? state.down.add(number) : state.down.delete(number); },
  sent: (message, body, line) => { state.waiting.set(message, { body, line }); },
  done: (message) => { state.waiting.delete(message); },
  at: (packet, number) => { state.at.set(packet, number); },
  gone: (packet) => { state.at.delete(packet); },
};

function restart() {
  Object.assign(state, { line: 0, next: 0, switches: [], down: new Set(), waiting: new Map(),
    at: new Map() });
}

function playTo(line) {
  if (line < state.line) restart();
  state.line = line;
  while (state.next < data.changes.length && data.changes[state.next][0] <= line) {
    const [at, what, ...values] = data.changes[state.next];
    APPLY[what](...values, at);
    state.next += 1;
  }
}

function lastLine(place) {
  return place ? data.rows[place - 1][1] : 0;
}

// The place on the slider of a row, or of the last row before it that took a step.
function placeOf(row) {
  let low = 0, high = data.rows.length;
  while (low < high) {
    const middle = (low + high + 1) >> 1;
    if (data.rows[middle - 1][0] <= row) low = middle; else high = middle - 1;
  }
  return low;
}

// ---- the network

const drawn = { nodes: [], links: [] };

const pointsText = (points) => points.map((point) => point.join(",")).join(" ");

// The point after a share of a line.
function spot(points, share) {
  const longs = points.slice(1).map(([x, y], k) => Math.hypot(x - points[k][0], y - points[k][1]));
  let left = share * longs.reduce((one, other) => one + other), k = 0;
  while (k < longs.length - 1 && left > longs[k]) { left -= longs[k]; k += 1; }
  const [from, to] = [points[k], points[k + 1]], part = left / (longs[k] || 1);
  return [from[0] + (to[0] - from[0]) * part, from[1] + (to[1] - from[1]) * part];
}

function drawNetwork() {
  byId("network").setAttribute("viewBox", `0 0 ${data.size[0]} ${data.size[1]}`);
  byId("network").style.maxWidth = `${data.size[0] * 1.25}px`;
  if (names.length > LARGE) document.querySelector("main").prepend(byId("network-part"));
  for (const [one, other, line] of data.links) {
    const [x, y] = spot(line, 0.5);
    drawn.links.push(make("g", { class: "link", "data-ends": `${names[one]} ${names[other]}` },
      make("polyline", { points: pointsText(line) }), make("text", { x, y: y + 4 }, "✕ down")));
  }
  for (const one of data.switches) {
    const [x, y] = one.at;
    const inside = make("text", { class: "inside", x, y: y + 15 });
    const below = make("text", { class: "below", x, y: y + HALF_HIGH + 15 });
    drawn.nodes.push({ inside, below, group: make("g", { class: "node", "data-switch": one.name },
      make("rect", { x: x - HALF_WIDE, y: y - HALF_HIGH, width: 2 * HALF_WIDE,
        height: 2 * HALF_HIGH, rx: 7 }),
      make("text", { class: "name", x, y: y - 3 }, one.name), inside, below) });
  }
  fill("links", drawn.links);
  fill("nodes", drawn.nodes.map((node) => node.group));
}

function portsText(ports) {
  if (ports.length === 0) return "";
  return ports.length < 5 ? `port ${ports.join(" ")}` : `${ports.length} ports`;
}

function showNetwork(standing) {
  drawn.links.forEach((link, number) => {
    link.setAttribute("class", state.down.has(number) ? "link off" : "link");
  });
  drawn.nodes.forEach(({ group, inside, below }, number) => {
    const [phase, , stamp, , cached] = state.switches[number];
    const { ports, room } = data.switches[number];
    const up = phase === "up", here = standing[number];
    group.setAttribute("class", `node${room ? " room" : ""}${up ? "" : " off"}`);
    inside.textContent = up ? `v${stamp} · ${cached} cached` : `✕ ${phaseText(phase)}`;
    const told = [portsText(ports), here ? plural(here, "packet") : ""].filter((text) => text);
    below.textContent = told.join(" · ");
  });
}

function phaseText(phase) {
  return phase === "closed" ? "not opened" : phase;
}

// ---- the state as tables

function count(values) {
  const counts = {};
  for (const value of values) counts[value] = (counts[value] || 0) + 1;
  return counts;
}

function showSwitches(standing) {
  const rows = data.switches.map((one, number) => {
    const [phase, boot, stamp, tables, cached] = state.switches[number];
    const up = phase === "up";
    const row = make("tr", { "data-switch": one.name, class: up ? "" : "off" },
      make("th", { scope: "row" }, one.name));
    const texts = [up ? "up" : `✕ ${phaseText(phase)}`, boot, up ? `v${stamp}` : "-", tables];
    row.append(...texts.map((text) => make("td", {}, String(text))));
    row.append(...[cached, standing[number] || 0].map((text) =>
      make("td", { class: "count" }, String(text))));
    return row;
  });
  document.querySelector("#switches tbody").replaceChildren(...rows);
}

function lineItem(line, told) {
  const go = make("button", { type: "button", "aria-label": `to the row of line ${line}` },
    String(line));
  go.addEventListener("click", () => set({ row: rowOfLine(line) }));
  const item = make("li", { class: line > lastLine(view.row) ? "later" : "" }, go,
    make("span", { class: "line" }, lines[line - 1]));
  if (told) item.append(make("span", { class: "match" }, told));
  return item;
}

function rowOfLine(line) {
  let low = 0, high = data.rows.length;
  while (low < high) {
    const middle = (low + high) >> 1;
    if (data.rows[middle][1] < line) low = middle + 1; else high = middle;
  }
  return Math.min(low + 1, data.rows.length);
}

// The match of the word that a line has, or of the cache rule that it names.
function matchOf(line) {
  const found = /^  (?:sent (\d+) \S+ cache|decided .* cache (\d+)$)/.exec(lines[line - 1]);
  return found ? data.matches[found[1] || found[2]] : "";
}

function showLines(id, numbers) {
  const shown = numbers.slice(0, MOST_LINES).map((line) => lineItem(line, matchOf(line)));
  if (numbers.length > MOST_LINES) {
    shown.push(make("li", {}, "", make("span", {}, `and ${numbers.length - MOST_LINES} more`)));
  }
  fill(id, shown);
}

function showState() {
  playTo(lastLine(view.row));
  const standing = count(state.at.values());
  showNetwork(standing);
  showSwitches(standing);
  const down = [...state.down].sort((a, b) => a - b).map((number) => data.links[number]);
  byId("down").textContent = down.map((ends) => `${names[ends[0]]} ${names[ends[1]]}`).join(", ")
    || "none";
  const waiting = [...state.waiting.values()];
  const kinds = Object.entries(count(waiting.map((one) => one.body)));
  byId("waiting").textContent = waiting.length === 0 ? "none"
    : `${waiting.length}: ${kinds.map(([body, number]) => `${number} ${body}`).join(", ")}`;
  showLines("messages", waiting.map((one) => one.line));
  showLines("lines", rowLines());
}

function showTime() {
  const row = view.row ? data.rows[view.row - 1][0] : 0;
  const place = row ? `after row ${row}` : "before the first row";
  for (const at of document.querySelectorAll(".at")) at.textContent = place;
  byId("row").value = view.row;
  byId("row").setAttribute("aria-valuetext", place);
  byId("go").value = row;
  byId("mark-before").disabled = markBeside(-1) === undefined;
  byId("mark-after").disabled = markBeside(1) === undefined;
  byId("before").disabled = view.row === 0;
  byId("after").disabled = view.row === data.rows.length;
  const last = data.rows.length ? data.rows[data.rows.length - 1][0] : 0;
  byId("when").textContent = row ? `${place} of ${last}: ${rowText()}` : place;
}

// ---- the marks of updates, crashes and links

const marks = data.marks.map(([row, kind, line]) => ({ place: placeOf(row), kind, line }));

function drawMarks() {
  const seen = new Set(), width = Math.max(1, data.rows.length);
  const drawnMarks = [];
  for (const { place, kind, line } of marks) {
    const x = Math.round(1000 * place / width);
    if (seen.has(`${x} ${kind}`)) continue;
    seen.add(`${x} ${kind}`);
    drawnMarks.push(make("line", { class: kind, x1: x, x2: x, y1: 0, y2: 10 },
      make("title", {}, line)));
  }
  fill("marks", drawnMarks);
  byId("marks").setAttribute("aria-label", `${plural(marks.length, "row")} with updates, crashes,`
    + " restarts and links");
}

// The place of the next mark after the slider's row, or of the last one before it.
function markBeside(side) {
  return side > 0 ? marks.find(({ place }) => place > view.row)?.place
    : marks.findLast(({ place }) => place < view.row)?.place;
}

function goToMark(event) {
  const { left, width } = byId("marks").getBoundingClientRect();
  const asked = (event.clientX - left) / width * data.rows.length;
  const near = marks.reduce((one, other) =>
    Math.abs(other.place - asked) < Math.abs(one.place - asked) ? other : one, marks[0]);
  if (near) set({ row: near.place });
}

// The first step of the row, and how many follow.
function rowText() {
  const [first, ...more] = rowLines().filter((line) => lines[line - 1].startsWith("row "));
  const step = lines[first - 1].replace(/^row \d+: /, "");
  return more.length ? `${step}, and ${plural(more.length, "step")} more` : step;
}

function rowLines() {
  const first = view.row ? lastLine(view.row - 1) + 1 : 1, last = lastLine(view.row);
  return Array.from({ length: last - first + 1 }, (_, k) => first + k);
}
