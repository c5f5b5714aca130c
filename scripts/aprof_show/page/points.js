// Which of many points are drawn, which is nearest to a place, and the guide lines.

// the first point whose size is not below a value
function firstFrom(sizes, value) {
  let [low, high] = [0, sizes.length];
  while (low < high) {
    const middle = (low + high) >> 1;
    if (sizes[middle] < value) low = middle + 1;
    else high = middle;
  }
  return low;
}

// The points of each series to draw. Of more than two that fall on one column of pixels the dearest is drawn as the greatest
// cost, the cheapest as the least, and the one in the middle as the mean.
function thinned(points, axis, width) {
  const drawn = { least: [], mean: [], most: [] };
  for (const { from, to } of runs(points, axis, width)) {
    if (to - from < 2) {
      for (let i = from; i <= to; i += 1) for (const list of Object.values(drawn)) list.push(i);
      continue;
    }
    let [least, most] = [from, from];
    for (let i = from; i <= to; i += 1) {
      if (points.least[i] < points.least[least]) least = i;
      if (points.most[i] > points.most[most]) most = i;
    }
    drawn.least.push(least);
    drawn.mean.push((from + to) >> 1);
    drawn.most.push(most);
  }
  return drawn;
}

// Runs of points that fall on one column of pixels, as pairs of the first and the last.
function runs(points, axis, width) {
  const found = [];
  for (let i = axis.log ? firstFrom(points.size, Number.MIN_VALUE) : 0; i < points.length; i += 1) {
    const last = found[found.length - 1];
    const here = Math.floor(axis.part(points.size[i]) * width);
    if (last && last.here === here) last.to = i;
    else found.push({ here, from: i, to: i });
  }
  return found;
}

// The point nearest to a place: by both coordinates among those within reach, else by its size alone.
function nearest(points, place, x, y, reach) {
  if (!points.length) return null;
  const from = firstFrom(points.size, place.size(x - reach));
  const to = firstFrom(points.size, place.size(x + reach));
  let [best, distance] = [null, Infinity];
  for (let i = from; i < to; i += 1) {
    const aside = place.x(points.size[i]) - x;
    const above = y === null ? 0
      : Math.min(...[points.least[i], points.mean[i], points.most[i]].map((cost) => Math.abs(place.y(cost) - y)));
    const found = aside * aside + above * above;
    if (found < distance) [best, distance] = [i, found];
  }
  if (best !== null) return best;
  if (from === 0) return 0;
  if (from >= points.length) return points.length - 1;
  return x - place.x(points.size[from - 1]) < place.x(points.size[from]) - x ? from - 1 : from;
}

// Where the guide lines meet at first: the dearest point about the middle of the doublings, not far down where fixed costs rule.
function anchorOf(points) {
  const from = firstFrom(points.size, 1);
  if (from >= points.length - 1) return null;
  const middle = Math.sqrt(points.size[from] * points.size[points.length - 1]);
  let low = Math.max(firstFrom(points.size, middle / 1.42), from);
  const high = firstFrom(points.size, middle * 1.42);
  if (low >= high) {
    low = Math.min(firstFrom(points.size, middle), points.length - 1);
    return low > from ? low - 1 : low;
  }
  let best = low;
  for (let i = low; i < high; i += 1) if (points.most[i] > points.most[best]) best = i;
  return best;
}

const GUIDES = [
  { name: "n", of: (n) => n },
  { name: "n log n", of: (n) => n * Math.log2(n + 1) },
  { name: "n²", of: (n) => n * n },
];

// a guide line through a point, as places over the axis
function guide(of, size, cost, axis) {
  const line = [];
  for (let step = 0; step <= 96; step += 1) {
    const x = axis.at(step / 96);
    if (x > 0) line.push({ x, y: (cost * of(x)) / of(size) });
  }
  return line;
}

// the dearest point of each doubling of the size, for the small picture in a row
function outline(routine) {
  const [sizes, , costs, , most] = routine.points;
  const value = most || costs;
  const at = typeof value === "number" ? () => value : (i) => value[i];
  const tops = new Map();
  for (let i = firstFrom(sizes, 1); i < sizes.length; i += 1) {
    const power = Math.floor(Math.log2(sizes[i]));
    if (!tops.has(power) || at(i) > at(tops.get(power))) tops.set(power, i);
  }
  return [...tops.values()].map((i) => [Math.log2(sizes[i]), Math.log2(Math.max(at(i), 1))]);
}
