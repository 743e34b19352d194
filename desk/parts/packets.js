// The packets as a table and as CSV, the policy's rows, a packet's path, and what is asked for.
// It follows page.js in one script.

// ---- the packets

function headerText({ header: [src, dst, sport, dport, proto] }) {
  return [`${proto} ${src}:${sport}`, `${dst}:${dport}`];
}

function endText({ end, port }) {
  return port === null ? end : `${end} by port ${port}`;
}

function wholeEndText(packet) {
  const row = packet.endRow ? ` in row ${packet.endRow}` : "";
  return `${endText(packet)}${row}${packet.cause ? `: ${packet.cause}` : ""}`;
}

function ruleText({ rule, action }) {
  return rule ? `${rule} ${action}` : "-";
}

function foundText({ by, in: ingress }) {
  const [how, name] = by.split(" ");
  return how === "cache" ? `found in the cache of ${ingress}, brought by message ${name}`
    : `found at the authority ${name}`;
}

const FITS = {
  end: (packet, value) => packet.end === value,
  switch: (packet, value) => packet.stood.includes(names.indexOf(value)),
  rule: (packet, value) => packet.rule === value,
  version: (packet, value) => String(packet.version) === value,
  from: (packet, value) => packet.row >= Number(value),
  to: (packet, value) => packet.row <= Number(value),
};

function filtered() {
  const asked = FILTERS.filter((name) => view[name]);
  return data.packets.filter((packet) => asked.every((name) => FITS[name](packet, view[name])));
}

function packetRow(packet) {
  const [from, to] = headerText(packet);
  const choose = make("button", { type: "button", "aria-label": `packet ${packet.number}` },
    String(packet.number));
  const row = make("tr", { "data-packet": packet.number,
    "aria-selected": String(packet.number === view.packet) },
    make("td", { class: "count" }, choose), make("td", { class: "count" }, String(packet.row)));
  const texts = [packet.in, from, to, packet.version ? `v${packet.version}` : "-",
    ruleText(packet), packet.by, endText(packet)];
  row.append(...texts.map((text) => make("td", {}, text)));
  row.addEventListener("click", () => set({ packet: packet.number }));
  return row;
}

function showPackets() {
  const found = filtered(), pages = Math.max(1, Math.ceil(found.length / PAGE));
  view.page = Math.min(view.page, pages - 1);
  const first = view.page * PAGE, shown = found.slice(first, first + PAGE);
  byId("found").textContent = found.length
    ? `${first + 1} to ${first + shown.length} of ${plural(found.length, "packet")}` : "no packets";
  byId("earlier").disabled = view.page === 0;
  byId("later").disabled = view.page === pages - 1;
  document.querySelector("#packets tbody").replaceChildren(...shown.map(packetRow));
}

// ---- the packets as CSV

const COLUMNS = {
  packet: ({ number }) => number, row: ({ row }) => row, in: (packet) => packet.in,
  ...Object.fromEntries(["src", "dst", "sport", "dport", "proto"].map((name, k) =>
    [name, ({ header }) => header[k]])),
  version: ({ version }) => version || "", rule: ({ rule }) => rule, action: ({ action }) => action,
  by: ({ by }) => by, end: ({ end }) => end, port: ({ port }) => port ?? "",
  end_row: ({ endRow }) => endRow ?? "", path: ({ stood }) => stood.map((k) => names[k]).join(" "),
  cause: ({ cause }) => cause,
};

function csvText(found) {
  const quoted = (value) => /[",\n]/.test(value) ? `"${String(value).replaceAll('"', '""')}"` : value;
  const rows = found.map((packet) => Object.values(COLUMNS).map((of) => quoted(of(packet))));
  return [Object.keys(COLUMNS), ...rows].map((row) => `${row.join(",")}\n`).join("");
}

function save() {
  const address = URL.createObjectURL(new Blob([csvText(filtered())], { type: "text/csv" }));
  const link = make("a", { href: address, download: `${data.name}-packets.csv` });
  link.click();
  setTimeout(() => URL.revokeObjectURL(address), 1000);
}

// ---- the policy's rows, with the packets that each decided

function decidedBy(version) {
  const counts = new Map();
  for (const packet of data.packets) {
    if (String(packet.version) !== version) continue;
    const held = counts.get(packet.rule) || { authority: 0, cache: 0 };
    held[packet.by.split(" ")[0]] += 1;
    counts.set(packet.rule, held);
  }
  return counts;
}

function policyRow(rule, says, { authority, cache } = { authority: 0, cache: 0 }) {
  const choose = make("button", { type: "button", "aria-label": `packets of row ${rule}` }, rule);
  const numbers = [authority + cache, authority, cache];
  const row = make("tr", { "data-rule": rule, class: numbers[0] ? "" : "unused" },
    ...numbers.map((number) => make("td", { class: "count" }, String(number))),
    make("td", {}, choose), make("td", {}, says));
  row.addEventListener("click", () => {
    set({ rule: numbers[0] ? rule : "", version: numbers[0] ? view.policy : "", page: 0 });
    showFilters();
  });
  return row;
}

function showPolicy() {
  const counts = decidedBy(view.policy), rules = data.rules[view.policy] || {};
  const named = new Set([...Object.keys(rules), ...counts.keys()]);
  named.delete("default");
  const order = [...named].sort((one, other) => Number(other) - Number(one));
  const rows = order.map((rule) => policyRow(rule, rules[rule] || "", counts.get(rule)));
  rows.push(policyRow("default", "no row matches: drop", counts.get("default")));
  document.querySelector("#policy tbody").replaceChildren(...rows);
  const unused = order.filter((rule) => !counts.has(rule)).length;
  byId("unused").textContent = `${unused} of ${plural(order.length, "row")} decided no packet`;
}

function showChosen() {
  for (const row of document.querySelectorAll("#packets tbody tr")) {
    row.setAttribute("aria-selected", String(Number(row.dataset.packet) === view.packet));
  }
  const packet = packets.get(view.packet);
  drawWay(packet);
  if (!packet) return;
  byId("packet-title").textContent = `Packet ${packet.number}: ${packet.end}`;
  const row = data.rules[packet.version]?.[packet.rule];
  const decided = packet.rule ? `Version ${packet.version} decided it by rule ${ruleText(packet)}`
    + `${row ? ` (${row})` : ""}, ${foundText(packet)}.` : "It was not decided.";
  const path = packet.stood.map((k) => names[k]).join(" > ");
  byId("packet-says").textContent = `${headerText(packet).join(" to ")}, entered at ${packet.in}. `
    + `${decided} Its path: ${path}; ${wholeEndText(packet)}.`;
  showLines("packet-lines", packet.lines);
}

// The points of the arrow from one switch to another, along their link.
function arrowOf(here, there) {
  const link = data.links.find(([one, other]) =>
    (one === here && other === there) || (one === there && other === here));
  return link[0] === here ? link[3] : link[4];
}

// Each hop is an arrow right of its link; those after the row of the slider are pale.
function drawWay(packet) {
  const arrows = [], numbers = [], taken = {};
  const stood = packet ? packet.stood : [];
  const told = packet ? packet.lines.filter((line) => lines[line - 1].startsWith("  hopped")) : [];
  stood.slice(1).forEach((there, k) => {
    const here = stood[k], arrow = arrowOf(here, there), again = `${here} ${there}`;
    const leg = k < packet.tunnelHops ? "tunnel" : "exit";
    const pale = told[k] > lastLine(view.row) ? " later" : "";
    taken[again] = (taken[again] || 0) + 1;
    const [x, y] = spot(arrow, Math.min(0.95, 0.36 + 0.14 * taken[again]));
    arrows.push(make("polyline", { class: `hop ${leg}${pale}`, "marker-end": `url(#${leg})`,
      "data-ends": `${names[here]} ${names[there]}`, points: pointsText(arrow) }));
    numbers.push(make("circle", { class: leg + pale, cx: x, cy: y, r: 10 }),
      make("text", { class: "order", x, y: y + 4 }, String(k + 1)));
  });
  fill("path", arrows);
  fill("numbers", numbers);
}

// ---- what is asked for

function options(name, values) {
  const select = byId("filters").elements[name];
  select.append(make("option", { value: "" }, "all"));
  for (const [value, number] of values) {
    select.append(make("option", { value }, `${value} (${number})`));
  }
}

function addFilters() {
  const counted = (values) => Object.entries(count(values));
  const ends = count(data.packets.map((packet) => packet.end));
  options("end", data.ends.filter((end) => ends[end]).map((end) => [end, ends[end]]));
  const visits = count(data.packets.flatMap((packet) => [...new Set(packet.stood)]));
  options("switch", names.map((name, k) => [name, visits[k] || 0]));
  const decided = data.packets.filter((packet) => packet.rule);
  options("rule", counted(decided.map((packet) => packet.rule))
    .sort(([one], [other]) => Number(other) - Number(one) || (one === "default" ? 1 : -1)));
  options("version", counted(decided.map((packet) => packet.version)));
}

function addVersions() {
  const versions = Object.keys(data.rules);
  byId("policy-version").append(...versions.map((version) =>
    make("option", { value: version }, version)));
  const last = data.packets.findLast((packet) => packet.version);
  view.policy = last ? String(last.version) : versions[versions.length - 1];
  byId("policy-version").value = view.policy;
}

function showFilters() {
  for (const name of FILTERS) byId("filters").elements[name].value = view[name];
}

function readAddress() {
  const asked = new URLSearchParams(location.hash.slice(1));
  for (const name of FILTERS) view[name] = asked.get(name) || "";
  view.row = asked.has("row") ? placeOf(Number(asked.get("row"))) : data.rows.length;
  view.packet = Number(asked.get("packet")) || 0;
  view.page = 0;
}

function writeAddress() {
  const asked = new URLSearchParams();
  asked.set("row", view.row ? data.rows[view.row - 1][0] : 0);
  if (view.packet) asked.set("packet", view.packet);
  for (const name of FILTERS) if (view[name]) asked.set(name, view[name]);
  history.replaceState(null, "", `#${asked}`);
}

// Takes over what changed, and shows what depends on it.
function set(changes) {
  Object.assign(view, changes);
  writeAddress();
  if ("row" in changes) { showTime(); showState(); }
  if ("page" in changes) showPackets();
  if ("row" in changes || "packet" in changes) showChosen();
}

function showAll() {
  showFilters();
  showTime();
  showState();
  showPackets();
  showChosen();
}

function listen() {
  byId("row").addEventListener("input", () => set({ row: Number(byId("row").value) }));
  byId("before").addEventListener("click", () => set({ row: view.row - 1 }));
  byId("after").addEventListener("click", () => set({ row: view.row + 1 }));
  byId("earlier").addEventListener("click", () => set({ page: view.page - 1 }));
  byId("later").addEventListener("click", () => set({ page: view.page + 1 }));
  byId("filters").addEventListener("change", (event) =>
    set({ [event.target.name]: event.target.value, page: 0 }));
  byId("filters").addEventListener("reset", () =>
    set({ ...Object.fromEntries(FILTERS.map((name) => [name, ""])), page: 0 }));
  byId("go").addEventListener("change", () => set({ row: placeOf(Number(byId("go").value)) }));
  byId("marks").addEventListener("click", goToMark);
  byId("mark-before").addEventListener("click", () => set({ row: markBeside(-1) }));
  byId("mark-after").addEventListener("click", () => set({ row: markBeside(1) }));
  byId("save").addEventListener("click", save);
  byId("policy-version").addEventListener("change", () => {
    view.policy = byId("policy-version").value;
    showPolicy();
  });
  document.querySelector("#packets tbody").addEventListener("keydown", (event) => {
    const step = { ArrowDown: "nextElementSibling", ArrowUp: "previousElementSibling" }[event.key];
    const next = step && event.target.closest("tr")[step];
    if (next) { event.preventDefault(); next.querySelector("button").focus(); }
  });
  addEventListener("hashchange", () => { readAddress(); showAll(); });
}

function begin() {
  document.title = `${data.name}: difane`;
  byId("name").textContent = data.name;
  const ends = count(data.packets.map((packet) => packet.end));
  fill("ends", [["packets", data.packets.length], ...data.ends.map((end) => [end, ends[end] || 0])]
    .map(([end, number]) => make("div", { "data-end": end }, make("dt", {}, end),
      make("dd", {}, String(number)))));
  byId("row").max = data.rows.length;
  restart();
  drawNetwork();
  addFilters();
  addVersions();
  drawMarks();
  showPolicy();
  readAddress();
  showAll();
  listen();
  byId("ready").textContent = `Ready after ${Math.round(performance.now())} ms.`;
}

begin();
