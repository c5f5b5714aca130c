// The three charts of a routine, one above the other over the same sizes.
const SERIES = [
  { key: "least", name: "least" },
  { key: "mean", name: "mean" },
  { key: "most", name: "greatest" },
];
const PARTS = ["own", "thread", "kernel"];
const figure = { points: null, log: true, anchor: null, hidden: new Set(), charts: [] };

// the part of a column that the axes can show: logarithmic ones leave out calls that read nothing
const drawnOf = (points, column) => column.subarray(figure.log ? firstFrom(points.size, 1) : 0);
const greatest = (column) => column.reduce((a, b) => Math.max(a, b), 1);

const narrow = () => byId("plots").clientWidth < 480;
const gutter = () => (narrow() ? 54 : 62);

// lines from the least to the greatest cost of a point, or of the points of one column of pixels, under the points
const bands = {
  id: "bands",
  beforeDatasetsDraw(chart, _, { drawn, points, colour }) {
    const { ctx, scales: { x, y } } = chart;
    ctx.save();
    ctx.strokeStyle = colour;
    ctx.lineWidth = drawn.most.length > 200 ? 1 : 3;
    ctx.beginPath();
    drawn.most.forEach((most, k) => {
      const least = drawn.least[k];
      if (points.most[most] === points.least[least]) return;
      const at = x.getPixelForValue(points.size[most]);
      ctx.moveTo(at, y.getPixelForValue(Math.max(points.least[least], y.min)));
      ctx.lineTo(at, y.getPixelForValue(points.most[most]));
    });
    ctx.stroke();
    ctx.restore();
  },
};

// the names of the guide lines, where they leave the chart
const guideNames = {
  id: "guideNames",
  afterDraw(chart, _, { guides, colour }) {
    const { ctx, chartArea: area, scales: { x, y } } = chart;
    ctx.save();
    ctx.fillStyle = colour;
    ctx.font = `${Chart.defaults.font.size}px ${Chart.defaults.font.family}`;
    let above = area.bottom;
    let before = area.right - 2;
    for (const { name, line } of guides) {
      const inside = line.filter((spot) => spot.y <= y.max);
      const last = inside[inside.length - 1];
      if (!last) continue;
      if (inside.length === line.length) {
        above = Math.min(y.getPixelForValue(last.y), above - 13);
        ctx.textAlign = "left";
        ctx.textBaseline = "middle";
        ctx.fillText(name, area.right + 4, above);
      } else {
        // at its top, left of the name before it; but within, where the unit of the axis stands there
        const half = ctx.measureText(name).width / 2;
        const at = Math.min(x.getPixelForValue(last.x), before - half);
        const within = at < area.left + 60;
        before = at - half - 6;
        ctx.textAlign = within ? "left" : "center";
        ctx.textBaseline = within ? "top" : "bottom";
        ctx.fillText(name, within ? at + 6 : at, area.top + (within ? 4 : -3));
      }
    }
    ctx.restore();
  },
};

function baseOptions(scales, plugins = {}) {
  return {
    animation: false, responsive: true, maintainAspectRatio: false, parsing: false, normalized: true, events: [],
    layout: { padding: { top: 0, right: narrow() ? 40 : 50 } },
    plugins: { legend: { display: false }, tooltip: { enabled: false }, ...plugins },
    scales,
  };
}

function series(points, drawn, look) {
  const radius = drawn.most.length > 400 ? 1.2 : drawn.most.length > 150 ? 2.2 : 3.5;
  const styles = {
    least: { pointStyle: "circle", borderColor: look.soft, backgroundColor: look.paper, borderWidth: 1.2, radius: radius - 0.2 },
    mean: { pointStyle: "line", borderColor: look.ink, borderWidth: 1.5, radius: radius - 0.2 },
    most: { pointStyle: "circle", borderColor: look.accent, backgroundColor: look.accent, borderWidth: 0, radius },
  };
  // a point is drawn once, in the topmost series, if its calls cost the same and its column of pixels shows that same point in each
  const top = SERIES.findLast(({ key }) => !figure.hidden.has(key))?.key;
  const differs = (i, k) => points.least[i] < points.most[i] || i !== drawn[top]?.[k];
  return SERIES.map(({ key }) => ({
    type: "scatter",
    data: drawn[key].filter((i, k) => key === top || differs(i, k))
      .map((i) => ({ x: points.size[i], y: Math.max(points[key][i], figure.log ? 0.5 : 0) })),
    hidden: figure.hidden.has(key), ...styles[key],
  }));
}

function costChart(points, x, look) {
  const low = drawnOf(points, points.least).reduce((a, b) => Math.min(a, b), Infinity);
  const y = axisOver(Math.max(low, 0.5), greatest(drawnOf(points, points.most)), figure.log);
  const drawn = thinned(points, x, Math.round(byId("cost-plot").clientWidth - gutter() - 50));
  const at = figure.anchor;
  const guides = at === null ? [] : GUIDES.map(({ name, of }) =>
    ({ name, line: guide(of, points.size[at], Math.max(points.most[at], 1), x) }));
  const lines = guides.map(({ line }) =>
    ({ type: "line", data: line, borderColor: look.guide, borderWidth: 1.2, borderDash: [5, 4], pointRadius: 0 }));
  const scales = {
    x: scaleOf(x, look, { title: "input size: words read (4 bytes each)", wanted: narrow() ? 4 : 8 }),
    y: scaleOf(y, look, { wanted: 6, width: gutter() }),
  };
  const options = baseOptions(scales, {
    bands: { drawn, points, colour: look.band },
    guideNames: { guides, colour: look.soft },
  });
  options.layout.padding.top = 20;
  const datasets = [...lines, ...series(points, drawn, look)].map((set, i) => ({ ...set, order: 10 - i }));
  return new Chart(byId("cost"), { type: "scatter", data: { datasets }, options, plugins: [bands, guideNames] });
}

// how thick bars may be that stand at these places without touching
function thickness(places) {
  let gap = 16;
  for (let i = 1; i < places.length; i += 1) gap = Math.min(gap, places[i] - places[i - 1]);
  return Math.max(1.5, Math.min(12, gap - 1.5));
}

function bars(id, points, x, look, axis, columns, options) {
  const width = byId("cost-plot").clientWidth - gutter() - 50;
  const groups = runs(points, x, width);
  const thick = thickness(groups.map(({ from }) => x.part(points.size[from]) * width));
  const datasets = columns.map(({ colour, value }) => ({
    backgroundColor: colour, barThickness: thick, grouped: false, minBarLength: axis.log ? 2 : 0,
    data: groups.map(({ from, to }) => ({ x: points.size[from], y: value(from, to) })),
  }));
  const scales = {
    x: { ...scaleOf(x, look, { wanted: narrow() ? 4 : 8, labelled: false }), stacked: true, offset: false },
    y: { ...scaleOf(axis, look, { width: gutter(), ...options }), stacked: columns.length > 1 },
  };
  return new Chart(byId(id), { type: "bar", data: { datasets }, options: baseOptions(scales) });
}

function callsChart(points, x, look) {
  const most = greatest(drawnOf(points, points.calls));
  const y = axisOver(figure.log ? 0.8 : 0, figure.log ? Math.max(most, 1.3) : most, figure.log);
  const value = (from, to) => greatest(points.calls.subarray(from, to + 1));
  return bars("calls", points, x, look, y, [{ colour: look.guide, value }], { wanted: 2 });
}

function partsChart(points, x, look) {
  const y = { ...axisOver(0, 1, false), max: 1 };
  const columns = PARTS.map((name, part) => ({ colour: look[name], value: (from, to) => partsOf(points, from, to)[part] }));
  const label = (value) => `${100 * value} %`;
  return bars("parts", points, x, look, y, columns, { wanted: 2, label });
}

// draws all charts anew: of other points, on other axes, in other colours or at another width
function drawCharts() {
  const { points } = figure;
  for (const chart of figure.charts) chart.destroy();
  figure.charts = [];
  if (!points || !points.length) return;
  performance.mark("draw");
  const look = colours();
  const last = points.size[points.length - 1];
  const first = points.size[firstFrom(points.size, 1)] || 1;
  const x = axisOver(first, Math.max(last, 1), figure.log);
  figure.charts = [costChart(points, x, look), callsChart(points, x, look)];
  if (points.induced) figure.charts.push(partsChart(points, x, look));
  performance.measure("draw", "draw");
}
