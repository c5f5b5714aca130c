// What a routine calls directly, dearest first, and which of all routines below it has most of its cost, and why that grows.
const MOST_CALLEES = 8;

const shareOf = (part) => `${percent(part)} %`;

// the routines that a routine calls itself, with the calls from there
function calleesOf(routine) {
  const pairs = new Map();
  for (let i = 0; i < contexts.length; i += 1) {
    const caller = contexts.caller[i];
    if (caller < 0 || contexts.routine[caller] !== routine.index || contexts.routine[i] === routine.index) continue;
    if (!pairs.has(contexts.routine[i])) pairs.set(contexts.routine[i], []);
    pairs.get(contexts.routine[i]).push(i);
  }
  return dearestFirst([...pairs].map(([callee, targets]) => ({
    routine: routines[callee], cost: outerCost(targets),
    calls: targets.reduce((sum, i) => sum + contexts.calls[i], 0),
    growth: targets.length === 1 ? contexts.growth[targets[0]] : callGrowth.get(`${callee} ${routine.index}`) ?? null,
  })));
}

const nameLink = (routine) => {
  const link = make("a", "link", routine.name);
  link.href = linkOf(routine);
  return link;
};

// how it is called, as parts of a sentence
function wayOf({ direct, through, more }) {
  if (through === null) return [];
  const others = more ? ` and ${plural(more, "other")}` : "";
  return [direct ? ", directly and through " : ", indirectly through ", nameLink(routines[through]), others];
}

function tellCause(routine) {
  const { cause } = routine;
  byId("cause").hidden = !cause;
  if (!cause) return;
  byId("cause").replaceChildren(`${shareOf(cause.part)} of its cost${routine.sizes ? "" : " so far"} is in `, nameLink(routines[cause.routine]),
    ` with its callees, ${cause.calls ? `called ${plural(cause.calls, "time")}` : "still open"}`, ...wayOf(cause), `${cause.why ? `; ${cause.why}` : ""}.`);
}

function tellCallees(routine) {
  const all = contexts ? calleesOf(routine) : [];
  byId("callees").hidden = !all.length;
  if (!all.length) return;
  const whole = Math.max(outerCost(contexts.routine.flatMap((one, i) => (one === routine.index ? [i] : []))), 1);
  const culprit = routine.cause && routines[routine.cause.way];
  byId("callees").tBodies[0].replaceChildren(...all.slice(0, MOST_CALLEES).map((callee) => make("tr", callee.routine === culprit ? "culprit" : "",
    make("td", "number", partCell(callee.cost / whole)), make("td", "number", callsText(callee.calls, count)),
    make("td", "number", growthText(callee.growth)), make("td", "name", nameLink(callee.routine)))));
  const left = all.length - MOST_CALLEES;
  byId("callees").tFoot.hidden = left <= 0;
  byId("callees").tFoot.rows[0].cells[0].textContent = left > 0 ? `and ${plural(left, "more routine")}` : "";
}
