// The head of the page, and what goes on in it.
function tellHead() {
  const { reports } = profile;
  const one = reports.length === 1;
  const names = reports.map(({ path }) => (one ? path : path.split("/").pop())).join(", ");
  const title = names.length > 90 ? plural(reports.length, "report") : names;
  byId("title").textContent = title;
  document.title = `${title} – aprof`;
  const ends = [...new Set(reports.map(({ end }) => end))];
  const facts = [one ? "" : plural(reports.length, "run"), plural(profile.steps, "instruction"), ends.join(", "),
    profile.open ? `${plural(profile.open, "call")} still open` : "no call still open"];
  byId("runs").hidden = one;
  byId("runs").querySelector("tbody").append(...reports.map(({ path, end, steps, open }) => make("tr", "",
    make("td", "", path), make("td", "number", count(steps)), make("td", "", end), make("td", "number", count(open)))));
  const { chains } = profile;
  if (!routines.length) facts.push("no call has returned");
  byId("summary").textContent = facts.filter(Boolean).join(" · ");
  const told = chains.slice(0, 3).map((chain) => `Still open at the end: ${chain.join(" › ")}`);
  if (chains.length > 3) told.push(`and ${count(chains.length - 3)} more`);
  if (profile.unplaced) told.push(profile.unplaced);
  byId("open").hidden = !told.length;
  byId("open").textContent = told.join("\n");
}

function tellCounts() {
  byId("library-name").textContent = profile.library;
  const amount = (which) => routines.filter((routine) => routine[which]).length;
  for (const which of ["cheap", "library"]) {
    byId(`${which}-count`).textContent = count(amount(which));
    byId(which).parentElement.hidden = amount(which) === 0;
  }
  byId("cheap").parentElement.title = byId("cheap-about").textContent;
  const listed = routines.some((r) => !r.cheap && !r.library);
  if (!listed) byId("library").checked = true;
  if (!routines.some((r) => !r.cheap)) byId("cheap").checked = true;
}

// shows the routine that the address names, or else the one that the page opened with
function follow() {
  const found = /^#routine=(.*)$/.exec(location.hash);
  let word = null;
  try {
    word = found && decodeURIComponent(found[1]);
  } catch { /* a link that is none */ }
  const wanted = word === null ? undefined : routineOf(word);
  byId("unknown").hidden = word === null || Boolean(wanted);
  byId("unknown").textContent = `There is no routine “${word}” in this profile.`;
  const routine = wanted || firstListed;
  byId("detail").hidden = !routine;
  if (!routine || routine === shown) return;
  const focused = document.activeElement;
  showRoutine(routine);
  markRow();
  // the focused link or row may be gone or hidden now, and the focus would be lost
  if (!focused.getClientRects().length) byId("detail").focus({ preventScroll: true });
}

function chooseRow(event) {
  const row = event.target.closest("tbody tr");
  if (!row) return;
  if (!event.target.closest("a")) location.hash = linkOf(routines[row.dataset.index]);
  if (matchMedia("(max-width: 980px)").matches) byId("detail").scrollIntoView();
}

function watch() {
  const redraw = () => { drawCharts(); mark(null); };
  byId("filter").addEventListener("input", drawTable);
  byId("cheap").addEventListener("change", drawTable);
  byId("library").addEventListener("change", drawTable);
  byId("tools").addEventListener("submit", (event) => event.preventDefault());
  byId("filter").addEventListener("keydown", (event) => {
    if (event.key === "ArrowDown") byId("routines").querySelector("tbody a")?.focus();
    if (event.key === "Enter" && table.rows.length) location.hash = linkOf(table.rows[0]);
  });
  byId("routines").addEventListener("keydown", moveInTable);
  byId("routines").addEventListener("click", chooseRow);
  byId("rows").addEventListener("scroll", () => {
    const { scrollTop, clientHeight, scrollHeight } = byId("rows");
    if (scrollTop + 2 * clientHeight > scrollHeight && table.drawn < table.rows.length) drawMore(table.drawn + CHUNK);
  });
  byId("scale").addEventListener("change", (event) => setAxes(event.target.value === "log"));
  document.addEventListener("keydown", (event) => {
    if (event.key !== "/" || event.ctrlKey || event.altKey || event.metaKey || event.target.matches("input[type=search]")) return;
    event.preventDefault();
    byId("filter").focus();
  });
  addEventListener("hashchange", follow);
  addEventListener("beforeprint", () => drawMore(table.rows.length));
  for (const media of ["(prefers-color-scheme: dark)", "print"]) matchMedia(media).addEventListener("change", redraw);
  let width = byId("plots").clientWidth;
  new ResizeObserver(() => {
    if (byId("plots").clientWidth === width || byId("figure").hidden) return;
    width = byId("plots").clientWidth;
    requestAnimationFrame(redraw);
  }).observe(byId("plots"));
}

Chart.defaults.font.family = getComputedStyle(document.body).fontFamily;
Chart.defaults.font.size = 12;
makeHead();
makeKeys();
makeTree();
watchPointer();
tellHead();
tellCounts();
drawTable();
const firstListed = table.rows[0] || routines[0];
watch();
follow();
document.documentElement.dataset.ready = "true";
