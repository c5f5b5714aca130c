// A tree that opens, as rows of a table.
const TREE_COLUMNS = [
  ["Calls", "calls that returned"], ["With callees %", "part of all instructions, with its callees"],
  ["Its own %", "its own part of all instructions, without its callees"],
  ["Growth", "how many times the cost of these calls grows where their size doubles"], ["Routine", ""],
];

function treeRow(node, level, place, of) {
  const row = make("tr", "");
  row.setAttribute("aria-level", level);
  row.setAttribute("aria-posinset", place);
  row.setAttribute("aria-setsize", of);
  row.tabIndex = -1;
  row.node = node;
  if (!node.leaf) row.setAttribute("aria-expanded", "false");
  const sign = make("span", "twist");
  sign.setAttribute("aria-hidden", "true");
  const name = make("td", "name", sign, make("span", "label", node.routine.name));
  name.style.setProperty("--level", level - 1);
  if (node.open) name.append(make("span", "tag", node.calls ? "some calls open" : "still open"));
  if (node.routine === shown) name.classList.add("chosen");
  const part = (cost) => partCell(cost === null ? null : cost / Math.max(profile.steps, 1));
  const cells = [count(node.calls), part(node.cost), part(node.self), growthText(node.growth)];
  row.append(...cells.map((cell) => make("td", "number", cell)), name);
  return row;
}

const levelOf = (row) => Number(row.getAttribute("aria-level"));

const DEEPEST = 40; // so far rows open by themselves

// opens a row; where there is one row under it, that too
function openRow(row, wanted = null) {
  if (row.getAttribute("aria-expanded") !== "false") return;
  row.setAttribute("aria-expanded", "true");
  const kids = row.node.kids();
  const rows = kids.map((kid, i) => treeRow(kid, levelOf(row) + 1, i + 1, kids.length));
  row.after(...rows);
  if (levelOf(row) >= DEEPEST) return;
  if (wanted) rows.filter(({ node }) => wanted.has(node.context)).forEach((one) => openRow(one, wanted));
  else if (rows.length === 1) openRow(rows[0]);
}

function closeRow(row) {
  if (row.getAttribute("aria-expanded") !== "true") return;
  row.setAttribute("aria-expanded", "false");
  while (row.nextElementSibling && levelOf(row.nextElementSibling) > levelOf(row)) row.nextElementSibling.remove();
}

function focusRow(row) {
  if (!row) return;
  for (const one of byId("tree").querySelectorAll("tr[tabindex='0']")) one.tabIndex = -1;
  row.tabIndex = 0;
  row.focus();
}

function parentRow(row) {
  let above = row.previousElementSibling;
  while (above && levelOf(above) >= levelOf(row)) above = above.previousElementSibling;
  return above;
}

function moveInTree(event) {
  const row = event.target.closest("tbody tr");
  if (!row || event.ctrlKey || event.altKey || event.metaKey) return;
  const opened = row.getAttribute("aria-expanded");
  if (event.key === "ArrowDown") focusRow(row.nextElementSibling);
  else if (event.key === "ArrowUp") focusRow(row.previousElementSibling);
  else if (event.key === "ArrowRight") opened === "false" ? openRow(row) : focusRow(opened && row.nextElementSibling);
  else if (event.key === "ArrowLeft") opened === "true" ? closeRow(row) : focusRow(parentRow(row));
  else if (event.key === "Enter") location.hash = linkOf(row.node.routine);
  else if (event.key === "Home") focusRow(byId("tree").tBodies[0].rows[0]);
  else return;
  event.preventDefault();
}

function clickInTree(event) {
  const row = event.target.closest("tbody tr");
  if (!row) return;
  if (event.target.closest(".label") && row.node.routine !== shown) location.hash = linkOf(row.node.routine);
  else if (row.getAttribute("aria-expanded") === "true") closeRow(row);
  else openRow(row);
  focusRow(row);
}

const treeKind = () => byId("tree-kind").querySelector(":checked").value;

function showContexts(routine) {
  byId("trees").hidden = !contexts;
  byId("no-contexts").hidden = Boolean(contexts);
  if (!contexts) return;
  const all = treeKind() === "all";
  byId("tree-note").textContent = all
    ? "From the first routine of each thread down, dearest first. A click on a name shows that routine."
    : `Under ${routine.name} its callers, under these theirs; the numbers are of the calls of ${routine.name} that came that way.`;
  const body = byId("tree").tBodies[0];
  const nodes = all ? rootNodes() : callerRoot(routine);
  body.replaceChildren(...nodes.map((node, i) => treeRow(node, 1, i + 1, nodes.length)));
  const way = all ? wayTo(routine) : null;
  for (const row of [...body.rows]) if (!all || way.has(row.node.context)) openRow(row, way);
  if (body.rows[0]) body.rows[0].tabIndex = 0;
}

function makeTree() {
  const head = byId("tree").tHead.rows[0];
  for (const [name, about] of TREE_COLUMNS) {
    const cell = make("th", name === "Routine" ? "name" : "number", name);
    cell.scope = "col";
    cell.title = about;
    head.append(cell);
  }
  byId("tree").addEventListener("keydown", moveInTree);
  byId("tree").addEventListener("click", clickInTree);
  byId("tree-kind").addEventListener("change", () => showContexts(shown));
}
