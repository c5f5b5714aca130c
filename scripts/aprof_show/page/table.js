// The table of the routines.
const CHUNK = 150;
const table = { key: null, down: true, rows: [], drawn: 0 };

const sizesText = (routine) => {
  if (!routine.sizes) return MINUS;
  const [first, last] = routine.sizes;
  return first === last ? short(first) : `${short(first)}–${short(last)}`;
};

// how many calls returned, if any did
const callsText = (calls, text) => (calls ? document.createTextNode(text(calls)) : make("span", "faint", "open"));

const COLUMNS = [
  { key: "growth", name: "Growth", about: "how many times the cost grows where the size doubles", value: (r) => r.ahead ?? -1, cell: growthCell },
  { key: "share", name: "With callees\u00a0%", about: "its part of all instructions, with its callees", value: (r) => r.share, cell: (r) => partCell(r.share, r.bound) },
  { key: "self", name: "Its\u00a0own\u00a0%", about: "its own part of all instructions, without its callees", value: (r) => r.self, cell: (r) => partCell(r.self), needs: profile.contexts !== null },
  { key: "calls", name: "Calls", about: "calls that returned", value: (r) => r.calls, cell: (r) => callsText(r.calls, short) },
  { key: "sizes", name: "Sizes", about: "the least and the greatest input size, in words", value: (r) => (r.sizes ? r.sizes[1] : -1), cell: (r) => document.createTextNode(sizesText(r)) },
  { key: "name", name: "Routine", about: "", text: true, value: (r) => r.name.toLowerCase(), cell: nameCell },
].filter((one) => one.needs !== false);

// the greatest cost of each doubling on axes of one measure: a line that is steeper than the diagonal is superlinear
function picture(routine) {
  const line = outline(routine);
  if (line.length < 2) return "";
  const [width, height] = [34, 17];
  const [x0, xs] = [line[0][0], line[line.length - 1][0] - line[0][0]];
  const low = Math.min(...line.map(([, y]) => y));
  const high = Math.max(...line.map(([, y]) => y));
  const unit = Math.min(width / Math.max(xs, 1), height / Math.max(high - low, 1));
  const spots = line.map(([x, y]) => `${(2 + (x - x0) * unit).toFixed(1)},${(height + 1.5 - (y - low) * unit).toFixed(1)}`);
  return `<svg width="38" height="20" viewBox="0 0 38 20" aria-hidden="true"><polyline points="${spots.join(" ")}"/></svg>`;
}

// in a tree or a list, a dash where it is not known
function growthText(growth) {
  if (growth !== null && growth !== undefined) return document.createTextNode(times(growth));
  const dash = make("span", "faint", MINUS);
  dash.title = growth === null ? NO_GROWTH : "not known for calls along this path";
  return dash;
}

function growthCell(routine) {
  const badges = badgesOf(routine);
  const cell = make("span", "rate");
  cell.innerHTML = picture(routine); // numbers alone
  const number = make("b", "", times(routine.growth));
  for (const badge of badges) badge.put(cell, number);
  for (const { word } of badges) number.append(make("span", "hidden", ` ${word}`));
  cell.title = badges.map(({ about }) => about).join("; ");
  cell.append(number);
  return cell;
}

function partCell(part, bound = "") {
  const cell = make("span", "part", percent(part, bound));
  if (bound) cell.title = BOUNDS[bound];
  if (part !== null) cell.style.setProperty("--width", `${Math.min(100, 100 * part).toFixed(1)}%`);
  return cell;
}

function nameCell(routine) {
  const link = make("a", "", routine.name);
  link.href = linkOf(routine);
  link.title = routine.line ? `${routine.name}\n${routine.line}` : routine.name;
  link.tabIndex = -1;
  return link;
}

function rowOf(routine) {
  const row = make("tr", "");
  row.dataset.index = routine.index;
  for (const { key, text, cell } of COLUMNS) row.append(make("td", `${key}${text ? "" : " number"}`, cell(routine)));
  if (routine === shown) row.setAttribute("aria-current", "true");
  return row;
}

function drawMore(upTo) {
  const body = byId("routines").tBodies[0];
  const rows = table.rows.slice(table.drawn, upTo).map(rowOf);
  table.drawn = Math.max(table.drawn, Math.min(upTo, table.rows.length));
  body.append(...rows);
}

// sorts, filters and draws the first rows; the others follow as they are scrolled to
function drawTable() {
  const word = byId("filter").value.trim().toLowerCase();
  const listed = (r) => (word ? r.name.toLowerCase().includes(word)
    : (byId("cheap").checked || !r.cheap) && (byId("library").checked || !r.library));
  table.rows = routines.filter(listed);
  if (table.key) {
    const { value } = COLUMNS.find(({ key }) => key === table.key);
    const sign = table.down ? -1 : 1;
    table.rows.sort((a, b) => (value(a) < value(b) ? -sign : value(a) > value(b) ? sign : a.index - b.index));
  }
  for (const head of byId("routines").tHead.rows[0].cells) {
    const sorted = head.dataset.key === table.key ? (table.down ? "descending" : "ascending") : "none";
    head.setAttribute("aria-sort", sorted);
  }
  byId("routines").tBodies[0].replaceChildren();
  table.drawn = 0;
  drawMore(CHUNK);
  byId("rows").scrollTop = 0;
  tellListed(word);
  tellKey(table.rows);
  markRow();
}

function tellListed(word) {
  const all = plural(routines.length, "routine");
  byId("count").textContent = table.rows.length === routines.length ? all
    : `${count(table.rows.length)} of ${all}${word ? ` with “${word}”` : ""}`;
  const listed = new Set(table.rows);
  const left = routines.filter((r) => (r.many || (r.steep && (!r.weak || word))) && !listed.has(r));
  byId("unlisted").hidden = !left.length;
  byId("unlisted").textContent = left.length ? unlistedText(left, word) : "";
}

// the marked routines that are not listed, the first of them by name
function unlistedText(left, word) {
  const kinds = [[left.filter((r) => r.library), `of the ${profile.library}`], [left.filter((r) => !r.named), "without a name"]]
    .filter(([some]) => some.length).map(([some, what]) => `${count(some.length)} ${what}`);
  const first = [...left.filter((r) => r.many), ...left.filter((r) => !r.many)];
  const names = first.slice(0, 3).map((r) => `${r.name} ${r.many ? "∗" : ""}${times(r.growth)}`).join(", ");
  const more = left.length > 3 ? ` and ${count(left.length - 3)} more` : "";
  return `Not listed: ${count(left.length)} marked${kinds.length ? ` (${kinds.join(", ")})` : ""}: ${names}${more}. To see them, ${
    wayToSee(left, word)}.`;
}

// what is to be cleared and ticked so that routines are listed
function wayToSee(left, word) {
  const boxes = [["cheap", "“below 1 %”"], ["library", `“${profile.library}”`]]
    .filter(([box]) => !byId(box).checked && left.some((r) => r[box])).map(([, name]) => name);
  return [word ? "clear the filter" : "", boxes.length ? `tick ${boxes.join(" and ")}` : ""].filter(Boolean).join(" and ");
}

// first the greatest, then the least, then again what to look at first
function sortBy(column) {
  if (table.key !== column.key) [table.key, table.down] = [column.key, !column.text];
  else if (table.down !== Boolean(column.text)) table.down = !table.down;
  else table.key = null;
  drawTable();
}

function makeHead() {
  const row = byId("routines").tHead.rows[0];
  for (const column of COLUMNS) {
    const button = make("button", "", column.name);
    button.type = "button";
    button.title = `${column.about ? `${column.about}; ` : ""}a third click restores the default order`;
    button.addEventListener("click", () => sortBy(column));
    const head = make("th", `${column.key}${column.text ? "" : " number"}`, button);
    head.scope = "col";
    head.dataset.key = column.key;
    row.append(head);
  }
}

// the row of the chosen routine, and the one row that the tab key reaches
function markRow() {
  const body = byId("routines").tBodies[0];
  for (const row of body.querySelectorAll("[aria-current]")) row.removeAttribute("aria-current");
  for (const link of body.querySelectorAll("a[tabindex='0']")) link.tabIndex = -1;
  const row = shown && body.querySelector(`tr[data-index="${shown.index}"]`);
  if (row) row.setAttribute("aria-current", "true");
  const reached = (row || body.rows[0])?.querySelector("a");
  if (reached) reached.tabIndex = 0;
}

function moveInTable(event) {
  const row = event.target.closest("tbody tr");
  const body = byId("routines").tBodies[0];
  const now = row ? row.sectionRowIndex : -1;
  const to = { ArrowDown: now + 1, ArrowUp: now - 1, Home: 0, End: table.rows.length - 1, PageDown: now + 10, PageUp: now - 10 }[event.key];
  if (to === undefined || event.ctrlKey || event.altKey || event.metaKey) return;
  event.preventDefault();
  const next = Math.min(Math.max(to, 0), table.rows.length - 1);
  if (next >= table.drawn) drawMore(next + CHUNK);
  for (const link of body.querySelectorAll("a[tabindex='0']")) link.tabIndex = -1;
  const link = body.rows[next]?.querySelector("a");
  if (link) {
    link.tabIndex = 0;
    link.focus();
  }
}
