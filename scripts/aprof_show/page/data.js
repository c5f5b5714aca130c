// The profile that the page was made of.
const profile = JSON.parse(byId("profile").textContent);
const routines = profile.routines;
const callGrowth = new Map(profile.callers.map(([routine, caller, growth]) => [`${routine} ${caller}`, growth]));

// powers as people write them
const raised = (text) => text?.replaceAll("^2", "²").replaceAll("^3", "³");

routines.forEach((routine, index) => {
  routine.index = index;
  routine.ahead = routine.rising ?? routine.growth;
  routine.guess = raised(routine.guess);
  if (routine.cause) routine.cause.why = raised(routine.cause.why);
  const sizes = routine.points[0];
  routine.sizes = sizes.length ? [sizes[0], sizes[sizes.length - 1]] : null;
});

// names may stand for several routines: the first of them is called by its name, the others by their entry
const named = new Map();
for (const routine of routines) {
  if (!named.has(routine.name)) named.set(routine.name, routine);
}
const linkOf = (routine) =>
  `#routine=${encodeURIComponent(named.get(routine.name) === routine ? routine.name : routine.entry)}`;
// by name, or by address as in `12784`, `0x12784` and `00012784`
const routineOf = (word) => named.get(word)
  || routines.find(({ entry }) => entry === word.toLowerCase().replace(/^0x/, "").padStart(8, "0"));

function column(packed, length, otherwise) {
  if (packed === null) return otherwise;
  return typeof packed === "number" ? new Float64Array(length).fill(packed) : Float64Array.from(packed);
}

// the points of a routine, a column for each number
function pointsOf(routine) {
  const [sizes, calls, costs, least, most, thread, kernel] = routine.points;
  const length = sizes.length;
  const points = { length, size: Float64Array.from(sizes), calls: column(calls, length), cost: column(costs, length) };
  points.least = column(least, length, points.cost);
  points.most = column(most, length, points.cost);
  points.mean = points.cost.map((cost, i) => cost / points.calls[i]);
  points.thread = column(thread, length, null);
  points.kernel = column(kernel, length, null);
  points.induced = [points.thread, points.kernel].some((part) => part && part.some((words) => words > 0));
  return points;
}

// own words, those that other threads and those that the kernel wrote, as parts of the sizes of the calls i to j
function partsOf(points, i, j = i) {
  let [words, thread, kernel] = [0, 0, 0];
  for (let k = i; k <= j; k += 1) {
    words += points.size[k] * points.calls[k];
    thread += points.thread[k];
    kernel += points.kernel[k];
  }
  return words ? [(words - thread - kernel) / words, thread / words, kernel / words] : [0, 0, 0];
}
