// Numbers and small parts of the page as text; names are set as text and never as HTML.
const MINUS = "–";
const grouped = new Intl.NumberFormat("en-US", { maximumFractionDigits: 0 });
const UNITS = [[1e12, "T"], [1e9, "G"], [1e6, "M"]];

const count = (value) => grouped.format(value);

// a mean has a digit behind the point where it is small
const mean = (value) => (value < 1000 && value % 1 ? value.toFixed(1) : count(value));

// for an axis or a narrow column
function short(value) {
  for (const [unit, letter] of UNITS) {
    if (value >= unit) return `${+(value / unit).toPrecision(3)} ${letter}`;
  }
  return count(value);
}

// with the sign of a bound: a part that is at least this small may be larger, so not `<0.1`
function percent(part, bound = "") {
  if (part === null || part === undefined) return MINUS;
  if (part > 0 && part < 0.001) return bound ? `${bound}0.0` : "<0.1";
  return `${bound}${(100 * part).toFixed(1)}`;
}

// as the terminal has it: a half is rounded up, and two digits are enough
function times(growth) {
  if (growth === null) return MINUS;
  if (growth > 99.5) return "×>99";
  return `×${growth < 9.95 ? (Math.floor(10 * growth + 0.5) / 10).toFixed(1) : Math.floor(growth + 0.5)}`;
}

const plural = (amount, one, many = `${one}s`) => `${count(amount)} ${amount === 1 ? one : many}`;

// an element with its class and its children, which are elements or text
function make(tag, look, ...children) {
  const element = document.createElement(tag);
  if (look) element.className = look;
  element.append(...children);
  return element;
}

const byId = (id) => document.getElementById(id);
