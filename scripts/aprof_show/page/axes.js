// The axes: their ranges, their ticks, and how Chart.js is told of them.

// a range of an axis that holds the values from low to high
function axisOver(low, high, log) {
  let [min, max] = [0, high * 1.05 || 1];
  if (log) {
    const room = high < 1.3 * low ? 2 : Math.max((high / low) ** 0.04, 1.12);
    [min, max] = [low / room, high * room];
  }
  const [from, to] = log ? [Math.log(min), Math.log(max)] : [min, max];
  return {
    log, min, max,
    part: (value) => ((log ? Math.log(value) : value) - from) / (to - from),
    at: (part) => { const value = from + part * (to - from); return log ? Math.exp(value) : value; },
  };
}

// The values that are labelled: powers of ten, with 2 and 5 between where there is room; or equal steps.
function ticksOf(axis, wanted) {
  const ticks = [];
  if (axis.log) {
    const decades = Math.log10(axis.max / axis.min);
    const between = decades * 3 <= wanted + 1 ? [1, 2, 5] : [1];
    const every = Math.max(1, Math.ceil(decades / wanted));
    for (let power = Math.floor(Math.log10(axis.min)); power <= Math.log10(axis.max); power += 1) {
      if (power < 0 || power % every) continue;
      ticks.push(...between.map((digit) => digit * 10 ** power));
    }
    const inside = ticks.filter((value) => value >= axis.min && value <= axis.max);
    if (inside.length > 1) return inside;
  }
  const rough = (axis.max - (axis.log ? axis.min : 0)) / wanted;
  const unit = 10 ** Math.floor(Math.log10(rough));
  const step = Math.max(1, [1, 2, 5, 10].find((digit) => digit * unit >= rough) * unit);
  const all = [];
  for (let value = Math.ceil(axis.min / step) * step; value <= axis.max; value += step) all.push(value);
  return all;
}

function colours() {
  const style = getComputedStyle(document.documentElement);
  const names = ["ink", "soft", "faint", "line", "accent", "band", "guide", "own", "thread", "kernel", "paper"];
  return Object.fromEntries(names.map((name) => [name, style.getPropertyValue(`--${name}`).trim()]));
}

// a scale of Chart.js with the range, ticks and colours of ours
function scaleOf(axis, look, { title = "", wanted, label = short, labelled = true, width = null }) {
  return {
    type: axis.log ? "logarithmic" : "linear",
    min: axis.min,
    max: axis.max,
    grid: { color: look.line, drawBorder: false, offset: false, tickLength: labelled ? 4 : 0 },
    title: { display: Boolean(title), text: title, color: look.soft, padding: { top: 2, bottom: 2 } },
    ticks: { color: look.soft, callback: (value) => (labelled ? label(value) : ""), display: labelled, maxRotation: 0, padding: 4 },
    afterBuildTicks: (scale) => { scale.ticks = ticksOf(axis, wanted).map((value) => ({ value })); },
    afterFit: (scale) => { if (width) scale.width = width; },
  };
}
