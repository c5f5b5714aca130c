"""Contexts in the formats of other tools: folded stacks (flame graphs, speedscope) and Callgrind's (KCachegrind)."""
from __future__ import annotations

from collections import Counter
from collections.abc import Iterator, Mapping, Sequence
from dataclasses import dataclass, field
from itertools import groupby

from aprof_show.costs import Cost, chain_of, costs_of, open_ends, rest_of
from aprof_show.model import Context, Profile, Routine
from aprof_show.tree import tree_of

OPEN = "[open_at_the_end]"
"""What was spent in calls that had not returned, as far as no context tells it: one word, as a folded stack has no spaces."""


def folded(profile: Profile, roots: Sequence[Context]) -> Iterator[str]:
    """A line `outer;inner COST` for each chain with its own cost; a routine that calls itself is in it once. The sum is the
    instructions of the run."""
    costs = costs_of(roots)
    below = [("", node) for node in reversed(tree_of(roots, costs).values())]
    while below:
        above, node = below.pop()
        chain = above + frame(node.routine)
        if node.own:
            yield f"{chain} {node.own}"
        below.extend((chain + ";", callee) for callee in reversed(node.below.values()))
    rest = rest_of(profile.steps, costs)
    if rest:
        ends = open_ends(roots, costs)
        links = [frame(link.routine) for link in chain_of(ends[0])] if len(ends) == 1 else []
        yield ";".join([*(link for link, _ in groupby(links)), OPEN]) + f" {rest}"


def frame(routine: Routine) -> str:
    """A label without what ends a frame or a line."""
    return routine.label.replace(";", ":").replace(" ", "_")


@dataclass
class Function:
    """A routine with its own cost, and for each routine that it calls how often and at what cost."""

    own: int = 0
    calls: Counter[Routine] = field(default_factory=Counter)
    costs: Counter[Routine] = field(default_factory=Counter)


def callgrind(profile: Profile, roots: Sequence[Context], image: str | None, lines: Mapping[int, str]) -> Iterator[str]:
    """The text. A routine's costs are all at the line where it begins, or at 0. `lines` are `file:line` by address."""
    costs = costs_of(roots)
    functions = functions_of(roots, costs)
    rest = rest_of(profile.steps, costs)
    yield "# callgrind format"
    yield "version: 1"
    yield "creator: aprof show"
    yield f"cmd: {image or 'unknown'}"
    yield f"desc: Reports: {' '.join(report.path for report in profile.reports)}"
    yield "positions: line"
    yield "events: Instructions"
    yield f"summary: {profile.steps}"
    yield ""
    if image:
        yield f"ob={image}"
    for routine, function in functions.items():
        yield from function_lines(routine, function, lines)
    if rest:
        yield from (f"fl={UNKNOWN_FILE}", f"fn={OPEN}", f"0 {rest}", "")
    yield f"totals: {profile.steps}"


UNKNOWN_FILE = "???"


def place_of(routine: Routine, lines: Mapping[int, str]) -> tuple[str, int]:
    """The file and the line of a routine."""
    file, _, number = lines.get(routine.entry, f"{UNKNOWN_FILE}:0").rpartition(":")
    return file, int(number) if number.isdigit() else 0


def function_lines(routine: Routine, function: Function, lines: Mapping[int, str]) -> Iterator[str]:
    file, line = place_of(routine, lines)
    yield f"fl={file}"
    yield f"fn={routine.label}"
    yield f"{line} {function.own}"
    for callee, calls in function.calls.items():
        callee_file, callee_line = place_of(callee, lines)
        if callee_file != file:
            yield f"cfi={callee_file}"
        yield f"cfn={callee.label}"
        yield f"calls={calls} {callee_line}"
        yield f"{line} {function.costs[callee]}"
    yield ""


def functions_of(roots: Sequence[Context], costs: Mapping[Context, Cost]) -> dict[Routine, Function]:
    """The contexts merged by caller and callee. The cost of such a pair counts where the pair is not nested in itself."""
    functions: dict[Routine, Function] = {}
    above: Counter[tuple[Routine, Routine]] = Counter()
    below: list[tuple[Context, bool]] = [(root, False) for root in reversed(roots)]
    while below:
        context, done = below.pop()
        pair = (context.caller.routine, context.routine) if context.caller else None
        if done:
            if pair:
                above[pair] -= 1
            continue
        functions.setdefault(context.routine, Function()).own += costs[context].own
        if pair:
            caller = functions[pair[0]]
            caller.calls[pair[1]] += max(context.calls, 1)
            caller.costs[pair[1]] += 0 if above[pair] else costs[context].total
            above[pair] += 1
        below.append((context, True))
        below.extend((callee, False) for callee in reversed(context.callees))
    return functions
