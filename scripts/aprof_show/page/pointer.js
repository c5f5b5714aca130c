// The point under the pointer or chosen by the keyboard: its numbers, and where it stands in all charts.
let chosenPoint = null;

// where a chart's canvas stands in the figure
function offsetOf(chart) {
  const canvas = chart.canvas.getBoundingClientRect();
  const plots = byId("plots").getBoundingClientRect();
  return { left: canvas.left - plots.left, top: canvas.top - plots.top };
}

// the numbers of a point, as pairs of a name and a text
function numbersOf(points, i) {
  const pairs = [["size", plural(points.size[i], "word")], ["calls", count(points.calls[i])]];
  if (points.least[i] === points.most[i]) pairs.push(["cost", count(points.most[i])]);
  else pairs.push(["least", count(points.least[i])], ["mean", mean(points.mean[i])], ["greatest", count(points.most[i])]);
  if (points.induced) {
    const [own, thread, kernel] = partsOf(points, i);
    pairs.push(["its thread’s or no one’s", `${percent(own)} %`]);
    if (thread) pairs.push(["other threads’", `${percent(thread)} %`]);
    if (kernel) pairs.push(["the kernel’s", `${percent(kernel)} %`]);
  }
  return pairs;
}

function placeTip(x, y) {
  const tip = byId("tip");
  const list = make("dl", "");
  for (const [name, text] of numbersOf(figure.points, chosenPoint)) list.append(make("dt", "", name), make("dd", "", text));
  tip.replaceChildren(list);
  tip.hidden = false;
  const right = x + 14 + tip.offsetWidth <= byId("plots").clientWidth;
  tip.style.left = `${right ? x + 14 : Math.max(0, x - 14 - tip.offsetWidth)}px`;
  tip.style.top = `${Math.max(0, y - tip.offsetHeight / 2)}px`;
}

// marks a point in all charts and shows its numbers; null marks none
function mark(i) {
  chosenPoint = i;
  const [chart] = figure.charts;
  const none = i === null || !chart || (figure.log && figure.points.size[i] < 1);
  byId("cross").hidden = none;
  byId("spots").replaceChildren();
  if (i === null || !chart) {
    byId("tip").hidden = true;
    return;
  }
  const { left, top } = offsetOf(chart);
  const { x, y } = chart.scales;
  const at = left + (none ? x.left : x.getPixelForValue(figure.points.size[i]));
  byId("cross").style.left = `${at}px`;
  byId("cross").style.top = `${top + chart.chartArea.top}px`;
  const seen = none ? [] : SERIES.filter(({ key }) => !figure.hidden.has(key));
  for (const { key } of figure.points.least[i] === figure.points.most[i] ? seen.slice(-1) : seen) {
    const spot = make("div", `spot ${key}`);
    spot.style.left = `${at}px`;
    spot.style.top = `${top + y.getPixelForValue(Math.max(figure.points[key][i], y.min))}px`;
    byId("spots").append(spot);
  }
  placeTip(at, top + y.getPixelForValue(Math.max(figure.points.most[i], y.min)));
}

const say = (i) => {
  byId("said").textContent = numbersOf(figure.points, i).map(([name, text]) => `${name} ${text}`).join(", ");
};

// the point that is meant by a place on the screen
function meant(event) {
  const [chart] = figure.charts;
  if (!chart) return null;
  const canvas = chart.canvas.getBoundingClientRect();
  const { x, y } = chart.scales;
  const place = {
    x: (size) => (figure.log && size < 1 ? -Infinity : x.getPixelForValue(size)),
    y: (cost) => y.getPixelForValue(cost),
    size: (pixel) => Math.max(x.getValueForPixel(pixel), 0),
  };
  const height = event.clientY - canvas.top;
  return nearest(figure.points, place, event.clientX - canvas.left, height <= canvas.height ? height : null, 16);
}

function moveGuides(i) {
  if (figure.points.size[i] < 1) return;
  figure.anchor = i;
  drawCharts();
  tellGuides();
  mark(i);
}

const MOVES = { ArrowLeft: -1, ArrowRight: 1, ArrowDown: -1, ArrowUp: 1 };

function onKey(event) {
  const last = figure.points ? figure.points.length - 1 : -1;
  if (last < 0 || event.ctrlKey || event.altKey || event.metaKey) return;
  const far = Math.max(1, Math.round(last / 10));
  const now = chosenPoint ?? (event.key === "ArrowLeft" ? last + 1 : -1);
  const to = {
    Home: 0, End: last, PageUp: now - far, PageDown: now + far,
    ...Object.fromEntries(Object.entries(MOVES).map(([key, move]) => [key, now + move])),
  }[event.key];
  if (to !== undefined) {
    mark(Math.min(Math.max(to, 0), last));
    say(chosenPoint);
  } else if (event.key === "Enter" && chosenPoint !== null) moveGuides(chosenPoint);
  else if (event.key === "Escape") mark(null);
  else return;
  event.preventDefault();
}

function watchPointer() {
  const plots = byId("plots");
  let latest = null;
  plots.addEventListener("pointermove", (event) => {
    if (!latest) requestAnimationFrame(() => { if (latest) mark(meant(latest)); latest = null; });
    latest = event;
  });
  plots.addEventListener("pointerleave", () => { latest = null; mark(null); });
  plots.addEventListener("click", (event) => { const i = meant(event); if (i !== null) moveGuides(i); });
  plots.addEventListener("keydown", onKey);
  plots.addEventListener("blur", () => mark(null));
}
