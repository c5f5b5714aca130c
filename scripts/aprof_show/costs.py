"""Costs by calling context: what a context costs with what it calls, its own part, and what was open at the end."""
from __future__ import annotations

from collections.abc import Iterator, Mapping, Sequence
from dataclasses import dataclass, field

from aprof_show.model import Context, Routine


@dataclass
class Cost:
    """Instructions. Where a call of the context was open at the end, both numbers are the least that is sure. `opens` and `ends`
    count the reports in which one surely was, and in which it surely was the innermost one."""

    total: int = 0
    own: int = 0
    opens: int = 0
    ends: int = 0

    @property
    def open(self) -> bool:
        return self.opens > 0

    def add(self, other: Cost) -> None:
        self.total += other.total
        self.own += other.own
        self.opens += other.opens
        self.ends += other.ends


@dataclass
class RoutineCost:
    """Sums over a routine's contexts: `total` over those that have no other call of the routine above them; `nested` says that
    there are others."""

    total: int = 0
    own: int = 0
    open: bool = False
    nested: bool = False


def contexts_of(roots: Sequence[Context]) -> Iterator[Context]:
    """All contexts, each before those under it. There may be chains too deep for a recursion."""
    below = list(reversed(roots))
    while below:
        context = below.pop()
        yield context
        below.extend(reversed(context.callees))


def costs_of(roots: Sequence[Context]) -> dict[Context, Cost]:
    """Of contexts that several reports have, the sums over these: a call open in one says nothing of the calls in the others."""
    costs: dict[Context, Cost] = {}
    parts: dict[Context, Cost] = {}
    for context in reversed(list(contexts_of(roots))):
        costs[context] = Cost()
        for part in context.joined or [context]:
            parts[part] = cost_in_report(part, parts)
            costs[context].add(parts[part])
    return costs


def cost_in_report(context: Context, costs: Mapping[Context, Cost]) -> Cost:
    """A context without points never returned, nor did those above it; nor did one whose callees cost more than itself."""
    below = [costs[callee] for callee in context.callees]
    sum_below = sum(cost.total for cost in below)
    open_below = any(cost.open for cost in below)
    is_open = not context.points or sum_below > context.cost or open_below
    return Cost(max(context.cost, sum_below), max(context.cost - sum_below, 0), int(is_open), int(is_open and not open_below))


def rest_of(steps: int, costs: Mapping[Context, Cost]) -> int:
    """Of all instructions those that no context has for its own: the calls that had not returned spent them."""
    return steps - sum(cost.own for cost in costs.values())


@dataclass
class Way:
    """The contexts from a first one down to one of those under it, and how deep in it each routine's calls are, rising."""

    path: list[Context] = field(default_factory=list)
    depths: dict[Routine, list[int]] = field(default_factory=dict)

    def enter(self, context: Context) -> None:
        self.depths.setdefault(context.routine, []).append(len(self.path))
        self.path.append(context)

    def leave(self) -> None:
        routine = self.path.pop().routine
        self.depths[routine].pop()
        if not self.depths[routine]:
            del self.depths[routine]


def ways_of(roots: Sequence[Context]) -> Iterator[Way]:
    """The way to each context. It is one value, which is right until the next is asked for."""
    way = Way()
    below: list[tuple[Context, bool]] = [(root, False) for root in reversed(roots)]
    while below:
        context, done = below.pop()
        if done:
            way.leave()
            continue
        way.enter(context)
        yield way
        below.append((context, True))
        below.extend((callee, False) for callee in reversed(context.callees))


def outermost(roots: Sequence[Context]) -> Iterator[tuple[Context, bool]]:
    """All contexts, each with whether no other call of its routine is above it."""
    for way in ways_of(roots):
        yield way.path[-1], len(way.depths[way.path[-1].routine]) == 1


def costs_by_routine(roots: Sequence[Context], costs: dict[Context, Cost]) -> dict[Routine, RoutineCost]:
    sums: dict[Routine, RoutineCost] = {}
    for context, is_outermost in outermost(roots):
        routine = sums.setdefault(context.routine, RoutineCost())
        routine.total += costs[context].total if is_outermost else 0
        routine.own += costs[context].own
        routine.open = routine.open or costs[context].open
        routine.nested = routine.nested or not is_outermost
    return sums


def chain_of(context: Context) -> list[Context]:
    """The contexts from the outermost one down to this one."""
    chain = [context]
    while chain[-1].caller:
        chain.append(chain[-1].caller)
    return chain[::-1]


def open_ends(roots: Sequence[Context], costs: Mapping[Context, Cost]) -> list[Context]:
    """The innermost contexts that surely were open at the end of a report."""
    return [context for context in contexts_of(roots) if costs[context].ends]


def chain_text(context: Context) -> str:
    """`_start > main > spin`."""
    return " > ".join(chain_texts(context))


def chain_texts(context: Context) -> list[str]:
    """The routines from the outermost call down; direct recursions are counted, and a long chain is cut in the middle."""
    links: list[tuple[str, int]] = []
    for link in chain_of(context):
        label = link.routine.label
        if links and links[-1][0] == label:
            links[-1] = label, links[-1][1] + 1
        else:
            links.append((label, 1))
    texts = [label if times == 1 else f"{label} (x{times})" for label, times in links]
    if len(texts) > 14:
        texts[6:-6] = [f"... {len(texts) - 12} more ..."]
    return texts
