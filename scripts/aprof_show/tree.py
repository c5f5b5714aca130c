"""The calling tree, and who calls a routine."""
from __future__ import annotations

from collections.abc import Collection, Iterable, Sequence
from dataclasses import dataclass, field

from aprof_show.causes import causes_of
from aprof_show.costs import Cost, costs_of, outermost
from aprof_show.growth import GrowthOf, growth_of, growths
from aprof_show.heading import head, open_lines
from aprof_show.joining import points_of
from aprof_show.marks import legend, marked
from aprof_show.model import Context, Profile, Routine
from aprof_show.table import ITS_OWN, WITH_CALLEES
from aprof_show.terminal import Column, percent, short, table, with_remarks

DEEPEST = 24
"""Lines further in than so many levels are not indented further; their level is told."""


@dataclass(eq=False)
class Node:
    """Contexts that are shown in one line. Direct recursion is one line: a call of a routine by itself adds its own cost and
    its callees to the line of the outer call."""

    routine: Routine
    total: int = 0
    own: int = 0
    open: bool = False
    recursive: bool = False
    contexts: list[Context] = field(default_factory=list)
    below: dict[Routine, Node] = field(default_factory=dict)

    @property
    def calls(self) -> int:
        return sum(context.calls for context in self.contexts)

    def growth(self) -> str:
        return marked(growth_of(points_of(self.contexts)))


@dataclass(frozen=True)
class Line:
    """A node at its level in the tree, and how many of those under it are left out; or all, where it comes a second time."""

    level: int
    node: Node
    left_out: int
    again: bool


def tree_of(roots: Sequence[Context], costs: dict[Context, Cost]) -> dict[Routine, Node]:
    """The contexts with direct recursion folded."""
    tops: dict[Routine, Node] = {}
    below: list[tuple[Context, Node | None]] = [(root, None) for root in reversed(roots)]
    while below:
        context, caller = below.pop()
        cost = costs[context]
        if caller and caller.routine is context.routine:
            node = caller
            node.recursive = True
        else:
            siblings = caller.below if caller else tops
            node = siblings.setdefault(context.routine, Node(context.routine))
            node.total += cost.total
        node.own += cost.own
        node.open = node.open or cost.open
        node.contexts.append(context)
        below.extend((callee, node) for callee in reversed(context.callees))
    return tops


def lines_of(tops: Iterable[Node], least: float) -> list[Line]:
    """The nodes of at least `least` instructions, the costly ones first. A routine that is above itself is not followed again."""
    lines: list[Line] = []
    below: list[tuple[int, Node, frozenset[Routine]]] = [(0, node, frozenset()) for node in reversed(by_total(tops))]
    while below:
        level, node, above = below.pop()
        again = node.routine in above
        callees = [] if again else by_total(node.below.values())
        kept = [callee for callee in callees if callee.total >= least or callee.open]
        lines.append(Line(level, node, len(callees) - len(kept), again))
        below.extend((level + 1, callee, above | {node.routine}) for callee in reversed(kept))
    return lines


def by_total(nodes: Iterable[Node]) -> list[Node]:
    return sorted(nodes, key=lambda node: -node.total)


def tree_text(
    profile: Profile, roots: Sequence[Context], least: float, room: int, wanted: Collection[Routine] = ()
) -> list[str]:
    """The whole tree, or the parts from the outermost calls of the wanted routines down."""
    costs = costs_of(roots)
    tops = [context for context, is_outermost in outermost(roots) if is_outermost and context.routine in wanted]
    lines = lines_of(tree_of(tops if wanted else roots, costs).values(), least * profile.steps)
    steps = max(profile.steps, 1)
    found = growths()
    not_shown = [below_text(line.node, costs, steps, found) if line.again else "" for line in lines]
    columns = [
        Column(WITH_CALLEES, [percent(line.node.total / steps) + "+" * line.node.open for line in lines]),
        Column(ITS_OWN, [percent(line.node.own / steps) + "+" * line.node.open for line in lines]),
        Column("GROWTH", [line.node.growth() for line in lines]),
        Column("CALLS", [short(line.node.calls) for line in lines]),
        Column(" ROUTINE", [" " + indented(line) for line in lines], left=True),
    ]
    told = table(columns, room)
    told = with_remarks(told, not_shown, told[-len(lines) - 1].index(" ROUTINE") + 3, room)
    about_again = ["(again) is not followed again; what has most of its cost there is named, with its callees"] * any(not_shown)
    under = notes(lines, f"{percent(least)} of all instructions")
    return [*head(profile), *open_lines(profile, room), *told, *under, *about_again]


def below_text(node: Node, costs: dict[Context, Cost], steps: int, found: GrowthOf) -> str:
    """What a node that comes again would show: the routine below with the greatest own cost there, and what that costs with its
    callees, as a part of all instructions."""
    mine = set(node.contexts)
    roots = [context for context in node.contexts if context.caller not in mine]
    cause = causes_of(roots, costs, {node.routine: node.total}, found).get(node.routine) if node.total else None
    return f"(not shown: {percent(cause.total / steps)} in {cause.routine.label})" if cause else ""


def notes(lines: Sequence[Line], least: str) -> list[str]:
    """What the signs in the lines mean, where there are any."""
    left_out = [f"(+N) calls N more routines, each for less than {least}"] if any(line.left_out for line in lines) else []
    uncertain = ["+ at least: a call had not returned"] if any(line.node.open for line in lines) else []
    return legend(line.node.growth() for line in lines) + left_out + uncertain


def indented(line: Line) -> str:
    indent = "  " * min(line.level, DEEPEST) + (f"[{line.level}] " if line.level > DEEPEST else "")
    left_out = f" (+{line.left_out})" if line.left_out else ""
    again = " (again)" if line.again else " (recursive)" if line.node.recursive else ""
    return f"{indent}{line.node.routine.label}{again}{left_out}"


def callers_of(routine: Routine, roots: Sequence[Context], costs: dict[Context, Cost]) -> Node:
    """The routine, under it its callers, under these theirs: each with the calls of the routine by that way. A routine is in
    a way once, where it comes first from below. Costs are those of calls that are not nested in another call of the routine."""
    top = Node(routine)
    ways: dict[Context, tuple[Routine, ...]] = {}
    same: dict[tuple[Routine, ...], tuple[Routine, ...]] = {}
    for context, is_outermost in outermost(roots):
        above = ways[context.caller] if context.caller else ()
        way = (context.routine, *(link for link in above if link is not context.routine))
        ways[context] = same.setdefault(way, way)
        if context.routine is not routine:
            continue
        top.recursive = top.recursive or not is_outermost
        node = top
        for link in way:
            node = node.below.setdefault(link, Node(link)) if link is not routine else top
            node.total += costs[context].total if is_outermost else 0
            node.open = node.open or costs[context].open
            node.contexts.append(context)
    return top


def callers_text(profile: Profile, roots: Sequence[Context], routine: Routine, least: float, room: int) -> list[str]:
    top = callers_of(routine, roots, costs_of(roots))
    lines = lines_of([top], least * top.total)
    steps = max(profile.steps, 1)
    columns = [
        Column("CALLS", [short(line.node.calls) for line in lines]),
        Column("COST", [short(line.node.total) + "+" * line.node.open for line in lines]),
        Column(WITH_CALLEES, [percent(line.node.total / steps) for line in lines]),
        Column("GROWTH", [line.node.growth() for line in lines]),
        Column(" CALLED BY", [" " + indented(line) for line in lines], left=True),
    ]
    head_line = f"{routine.label} at {routine.entry:08x}, and who calls it"
    return [head_line, *table(columns, room), *notes(lines, f"{percent(least)} of its cost")]
