// What stands beside or around a growth or a share, and the key that tells of what the listed routines have.
const BOUNDS = { "≥": "at least: a call was still open at the end", "≤": "at most: nested calls were each counted" };

const lookOf = (name) => (cell) => cell.classList.add(name);

const { steep, weak, many, rising } = profile.meanings;

const BADGES = [
  { has: (r) => r.steep && !r.weak, word: "superlinear", about: steep, put: lookOf("steep") },
  { has: (r) => r.steep && r.weak, word: "superlinear, uncertain", about: `superlinear, but ${weak}`, put: (cell) => cell.classList.add("steep", "doubt") },
  { has: (r) => !r.steep && r.weak, word: "uncertain", about: weak, put: lookOf("doubt") },
  { has: (r) => r.many, word: "many calls", about: many, put: (cell, number) => { cell.classList.add("many"); number.prepend("∗"); } },
  { has: (r) => r.rising !== null, word: "rising", about: rising, put: (cell, number) => number.append("↑") },
];

const NO_GROWTH = "at most one input size other than 0, so its growth is unknown";

const badgesOf = (routine) => BADGES.filter(({ has }) => has(routine));

// the key: an entry for each badge, bound and dash that these routines have
function tellKey(rows) {
  const entry = (sign, text) => make("span", "", sign, ` ${text}`);
  const entries = BADGES.filter(({ has }) => rows.some(has)).map(({ put, about }) => {
    const [cell, number] = [make("span", "rate"), make("b", "", "×2.5")];
    put(cell, number);
    cell.append(number);
    return entry(cell, about);
  });
  if (rows.some((r) => r.growth === null)) entries.push(entry(make("b", "", MINUS), NO_GROWTH));
  for (const [sign, about] of Object.entries(BOUNDS)) {
    if (rows.some(({ bound }) => bound === sign)) entries.push(entry(make("b", "", sign), about));
  }
  byId("key").replaceChildren(...entries);
}
