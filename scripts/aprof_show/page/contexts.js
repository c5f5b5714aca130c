// The calling contexts as nodes of two trees: down from the first routines, and up from one routine to its callers.
const contexts = profile.contexts && { ...profile.contexts, length: profile.contexts.routine.length };

const wasOpen = contexts && new Uint8Array(contexts.length);
contexts?.open.forEach((i) => { wasOpen[i] = 1; });

// the contexts under each context
const under = contexts && (() => {
  const lists = Array.from({ length: contexts.length }, () => []);
  contexts.caller.forEach((caller, i) => { if (caller >= 0) lists[caller].push(i); });
  return lists;
})();

const dearestFirst = (nodes) => nodes.sort((a, b) => b.cost - a.cost);

// the node of a context, and those under it
function nodeOf(i) {
  return {
    routine: routines[contexts.routine[i]], calls: contexts.calls[i], cost: contexts.cost[i], open: wasOpen[i] === 1,
    self: contexts.self[i], growth: contexts.growth[i], context: i,
    kids: () => dearestFirst(under[i].map(nodeOf)), leaf: under[i].length === 0,
  };
}

const rootNodes = () => dearestFirst(contexts.caller.flatMap((caller, i) => (caller < 0 ? [nodeOf(i)] : [])));

// behind the last context under each one: those under it stand behind it
const endOf = contexts && (() => {
  const ends = new Uint32Array(contexts.length);
  for (let i = contexts.length - 1; i >= 0; i -= 1) {
    ends[i] = Math.max(ends[i], i + 1);
    const caller = contexts.caller[i];
    if (caller >= 0) ends[caller] = Math.max(ends[caller], ends[i]);
  }
  return ends;
})();

// the cost of some contexts, which rise, counting once what lies in another of them
function outerCost(targets) {
  let [cost, end] = [0, 0];
  for (const i of targets) {
    if (i < end) continue;
    cost += contexts.cost[i];
    end = endOf[i];
  }
  return cost;
}

// The callers of a node: its contexts by the routine that is next further up. `pairs` has a context and how far up we are.
function callersOf(pairs, chosen, depth) {
  const groups = new Map();
  for (const [target, at] of pairs) {
    const caller = contexts.caller[at];
    if (caller < 0) continue;
    const routine = contexts.routine[caller];
    if (!groups.has(routine)) groups.set(routine, []);
    groups.get(routine).push([target, caller]);
  }
  return dearestFirst([...groups].map(([routine, group]) => callerNode(routine, group, chosen, depth)));
}

function callerNode(routine, pairs, chosen, depth) {
  const targets = pairs.map(([target]) => target);
  const calls = targets.reduce((sum, i) => sum + contexts.calls[i], 0);
  let growth;
  if (targets.length === 1) growth = contexts.growth[targets[0]];
  else if (depth === 1) growth = callGrowth.get(`${chosen.index} ${routine}`) ?? null;
  return {
    routine: routines[routine], calls, cost: outerCost(targets), growth,
    open: targets.some((i) => wasOpen[i]), self: targets.reduce((sum, i) => sum + contexts.self[i], 0),
    kids: () => callersOf(pairs, chosen, depth + 1), leaf: pairs.every(([, at]) => contexts.caller[at] < 0),
  };
}

function callerRoot(routine) {
  const pairs = contexts.routine.flatMap((one, i) => (one === routine.index ? [[i, i]] : []));
  if (!pairs.length) return [];
  const node = callerNode(routine.index, pairs, routine, 0);
  return [{ ...node, growth: routine.growth }];
}

// the contexts from a first routine down to the dearest context of a routine
function wayTo(routine) {
  let dearest = null;
  contexts.routine.forEach((one, i) => {
    if (one === routine.index && (dearest === null || contexts.cost[i] > contexts.cost[dearest])) dearest = i;
  });
  const way = new Set();
  for (let at = dearest; at !== null && at >= 0; at = contexts.caller[at]) way.add(at);
  return way;
}
