// What is said of the routine that is chosen.
let shown = null;
let wantsLog = true;

// what its growth says, as a sentence
function verdictOf(routine) {
  if (!routine.sizes) return "All its calls were still open at the end, so it has no points, and what they cost in the end is not known.";
  if (routine.growth === null) {
    const sizes = routine.sizes[0] === routine.sizes[1] ? "one size" : "one size other than 0";
    return `Its calls have ${sizes}, which says nothing about growth: give the run several inputs, or show several reports at once.`;
  }
  const bent = routine.bent === null ? ""
    : ` Costs at one size differ, so that is of the mean; the greatest cost grows ${times(routine.bent)}.`;
  const weak = routine.weak ? ` That is uncertain: ${routine.weak}.` : "";
  return `When its input doubles, its ${bent ? "mean" : "greatest"} cost grows ${times(routine.growth)}${slopeOf(routine)}.${bent}${weak}`;
}

// how it goes on at the largest sizes, and what that is
function slopeOf(routine) {
  if (routine.rising !== null) return `, and ${times(routine.rising)} at the largest sizes, where it still rises: ${routine.guess}, so watch it`;
  const differs = routine.top !== null && Math.abs(routine.top - routine.growth) >= 0.15;
  return `${differs ? ` (${times(routine.top)} at the largest sizes)` : ""}: ${routine.guess}`;
}

// the greatest ratio between the costs of two calls of one size
const spreadOf = (points) => points.most.reduce((spread, most, i) => Math.max(spread, points.least[i] ? most / points.least[i] : 1), 1);

function factsOf(routine) {
  const facts = [["growth", times(routine.growth), routine.steep ? "steep" : ""],
    ["with its callees", `${percent(routine.share, routine.bound)} %`, "", "part of all instructions, with its callees"]];
  if (routine.self !== null) facts.push(["its own", `${percent(routine.self)} %`, "", "its own part of all instructions, without its callees"]);
  facts.push(["calls", count(routine.calls)]);
  if (routine.sizes) facts.push([plural(routine.points[0].length, "size"), sizesText(routine)], ["greatest cost", short(routine.greatest)]);
  if (routine.twice !== null) facts.push(["estimate at twice the size", `≈ ${short(routine.twice)}`]);
  if (spreadOf(figure.points) >= 1.05) facts.push(["spread at one size", times(spreadOf(figure.points))]);
  return facts;
}

function factOf([name, text, look = "", about = ""]) {
  const fact = make("div", "", make("dt", "", name), make("dd", look, text));
  fact.title = about;
  return fact;
}

function tellGuides() {
  const { points, anchor } = figure;
  const parts = [];
  if (anchor !== null) {
    parts.push(`The dashed lines grow as n, n log n and n² from the point at size ${count(points.size[anchor])}; a click on a point moves them there.`);
  }
  if (figure.log && points.size[0] === 0) {
    const cost = points.least[0] === points.most[0] ? count(points.most[0]) : `${count(points.least[0])} to ${count(points.most[0])}`;
    parts.push(`${plural(points.calls[0], "call")} that read nothing, at a cost of ${cost}, ${points.calls[0] === 1 ? "has" : "have"} no place on a logarithmic axis.`);
  }
  byId("guides-note").textContent = parts.join(" ");
}

function tellParts(points) {
  const note = byId("parts-note");
  byId("parts-block").hidden = !points.induced;
  note.hidden = points.induced;
  note.textContent = points.thread
    ? "Its input is all its thread’s own: no word that it read was last written by another thread or by the kernel."
    : "The report does not tell who wrote the input.";
}

function setAxes(log) {
  wantsLog = log;
  const { points } = figure;
  const hasLog = points !== null && points.length > 0 && points.size[points.length - 1] > 0;
  figure.log = log && hasLog;
  for (const input of byId("scale").querySelectorAll("input")) {
    input.checked = input.value === (figure.log ? "log" : "linear");
    input.disabled = input.value === "log" && !hasLog;
  }
  drawCharts();
  mark(null);
  if (points && points.length) tellGuides();
}

function showRoutine(routine) {
  shown = routine;
  const points = pointsOf(routine);
  figure.points = points;
  figure.anchor = anchorOf(points);
  byId("name").textContent = routine.name;
  byId("place").textContent = [routine.line, routine.entry === routine.name ? null : `at ${routine.entry}`,
    routine.library ? profile.library : null].filter(Boolean).join(" · ");
  byId("verdict").textContent = verdictOf(routine);
  tellCause(routine);
  tellCallees(routine);
  byId("facts").replaceChildren(...factsOf(routine).map(factOf));
  byId("figure").hidden = points.length === 0;
  byId("plots").setAttribute("aria-label", `Cost of ${routine.name} by size, ${plural(points.length, "point")}`);
  byId("said").textContent = "";
  tellParts(points);
  setAxes(wantsLog);
  showContexts(routine);
}

function makeKeys() {
  for (const { key, name } of [...SERIES].reverse()) {
    const button = make("button", `key ${key}`, make("i", ""), name);
    button.type = "button";
    button.setAttribute("aria-pressed", "true");
    button.addEventListener("click", () => {
      if (!figure.hidden.delete(key)) figure.hidden.add(key);
      button.setAttribute("aria-pressed", String(!figure.hidden.has(key)));
      drawCharts();
    });
    byId("series").append(button);
  }
  const names = ["its thread, or no one", "other threads", "the kernel"];
  byId("part-keys").append(...PARTS.map((part, i) => make("span", `key ${part}`, make("i", ""), names[i])));
}
