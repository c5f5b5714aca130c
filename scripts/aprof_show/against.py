"""Two profiles of one program, before and after a change."""
from __future__ import annotations

from collections import Counter
from collections.abc import Collection, Iterator, Mapping, Sequence
from dataclasses import dataclass
from enum import Enum

from aprof_show.growth import Growth, growth_of
from aprof_show.joining import Key, add_points, at_one_place
from aprof_show.library import library_text
from aprof_show.marks import legend, marked
from aprof_show.model import Routine
from aprof_show.rows import Row
from aprof_show.table import GREATEST_COST, NAMED, WITH_CALLEES, Choice, greatest_cost, share_text
from aprof_show.table import marked_lines, marked_of, signs_of, sure_of
from aprof_show.terminal import Column, plural, short, table


@dataclass(frozen=True)
class Pair:
    """A routine before and after; None where it isn't there."""

    old: Row | None
    new: Row | None

    @property
    def either(self) -> Row:
        row = self.new or self.old
        assert row
        return row

    def between(self) -> Growth | None:
        """Where each has one call, and the sizes are a doubling apart, the growth from the one to the other."""
        if not self.old or not self.new or self.old.routine.calls != 1 or self.new.routine.calls != 1:
            return None
        points = add_points(self.old.routine.points, self.new.routine.points)
        growth = growth_of(points)
        return growth if growth and growth.size_ratio >= 2 else None


def paired(old: Sequence[Row], new: Sequence[Row]) -> list[Pair]:
    """By name. Several routines of one name, static functions, are paired by their address where both are of one image, or else
    by their order if each has as many. Routines without a name aren't paired: another image has other addresses."""
    listings = [[(row.routine.entry, row.routine.name) for row in rows if row.routine.name] for rows in (old, new)]
    one_image = at_one_place(listings)
    entries: dict[str | None, tuple[set[int], set[int]]] = {}
    for place, listing in enumerate(listings):
        for entry, name in listing:
            entries.setdefault(name, (set(), set()))[place].add(entry)
    ways = {name: way_of(before, after, one_image) for name, (before, after) in entries.items()}
    left = dict(keyed(old, ways))
    pairs = [Pair(left.pop(key, None), row) for key, row in keyed(new, ways)]
    return pairs + [Pair(row, None) for row in left.values()]


class Way(Enum):
    """What tells routines of one name apart."""

    ORDER = 0
    ADDRESS = 1
    NOTHING = 2


def way_of(before: set[int], after: set[int], one_image: bool) -> Way:
    if len(before | after) > 1 and one_image and (before <= after or after <= before):
        return Way.ADDRESS
    return Way.ORDER if len(before) == len(after) else Way.NOTHING


def keyed(rows: Sequence[Row], ways: Mapping[str | None, Way]) -> Iterator[tuple[Key, Row]]:
    seen: Counter[str] = Counter()
    for row in rows:
        name, way = row.routine.name, ways.get(row.routine.name, Way.NOTHING)
        if name is None or way is Way.NOTHING:
            yield (id(row),), row
        else:
            yield (name, row.routine.entry if way is Way.ADDRESS else seen[name]), row
            seen[name] += 1


def change(pair: Pair, steps: tuple[int, int]) -> float:
    """How much the cost differs, in instructions, today's and that at ten times the size: a growth that rose is a change too."""
    old = (pair.old.weight + pair.old.share) * steps[0] if pair.old else 0.0
    new = (pair.new.weight + pair.new.share) * steps[1] if pair.new else 0.0
    return abs(new - old)


@dataclass(frozen=True)
class Compared:
    """Which pairs are told, the largest change first, and how many are not: those that changed less, and those that didn't.
    `library` are the libraries' routines that changed, as they are now."""

    told: list[Pair]
    less: int
    same: int
    library: list[Row]


def compared(
    old: Sequence[Row], new: Sequence[Row], steps: tuple[int, int], choice: Choice, names: Collection[Routine]
) -> Compared:
    """Routines that have not changed are left out. With names these routines alone, changed or not."""
    pairs = paired(old, new)
    library = [] if names or choice.library else [pair for pair in pairs if pair.either.library]
    if names:
        listed = [pair for pair in pairs if any(row and row.routine in names for row in (pair.old, pair.new))]
    else:
        shown = [pair for pair in pairs if choice.library or not pair.either.library]
        listed = [pair for pair in shown if choice.all or any(row and choice.has(row) for row in (pair.old, pair.new))]
    changed = [pair for pair in listed if names or choice.all or differs(pair)]
    told = sorted(changed, key=lambda pair: -change(pair, steps))[: choice.top]
    now = [pair.new for pair in library if pair.new and differs(pair)]
    return Compared(told, len(changed) - len(told), len(listed) - len(changed), now)


def against_text(
    old: Sequence[Row],
    new: Sequence[Row],
    steps: tuple[int, int],
    choice: Choice,
    room: int,
    names: Collection[Routine] = (),
) -> list[str]:
    """Growth, share and greatest cost before and after, the largest change first."""
    found = compared(old, new, steps, choice, names)
    library = sure_of(found.library)
    lines = [f"{steps[0]} instructions before, {steps[1]} after"]
    if found.told:
        lines += table(columns_of(found.told), room)
    growths = [text for pair in found.told for text in (texts(pair.old)[0], texts_now(pair)[0])]
    lines += legend([*growths, *signs_of(marked_of(library)[:NAMED])])
    if any(pair.between() for pair in found.told):
        lines.append("a growth behind `-` is that from the one call before to the one call now")
    if any(pair.old is None or pair.new is None for pair in found.told):
        lines.append("`.` not there: not called, inlined, or not to be told from others of its name")
    if found.less:
        lines.append(f"and {plural(found.less, 'routine')} that changed less: a greater --top")
    if found.same:
        lines.append(f"{plural(found.same, 'routine')} of the same growth, share and cost")
    where = f"in the {library_text(row.routine for row in library)} now"
    return lines + marked_lines(library, where, "--library", room)


def texts(row: Row | None) -> tuple[str, str, str]:
    """Growth with its signs, share and greatest cost; `.` where the routine isn't there."""
    if row is None:
        return ". ", ".", "."
    return marked(row.growth, row.many), share_text(row), short(greatest_cost(row.routine))


def texts_now(pair: Pair) -> tuple[str, str, str]:
    growth, share, cost = texts(pair.new)
    between = pair.between()
    many = pair.new is not None and pair.new.many
    return marked(between, many) if between else growth, share, cost


def differs(pair: Pair) -> bool:
    return texts(pair.old) != texts(pair.new)


def columns_of(pairs: Sequence[Pair]) -> list[Column]:
    before, after = [texts(pair.old) for pair in pairs], [texts_now(pair) for pair in pairs]
    columns = []
    for place, heading in enumerate(("GROWTH", WITH_CALLEES, GREATEST_COST)):
        columns.append(Column(heading, [row[place] for row in before]))
        columns.append(Column("NOW", [row[place] for row in after]))
    return columns + [Column(" ROUTINE", [f" {pair.either.routine.label}" for pair in pairs], left=True)]
