"""What `show` does for a command line."""
from __future__ import annotations

import argparse
import io
import sys
from collections.abc import Iterable, Sequence

from aprof_show import called, page
from aprof_show.against import against_text, paired
from aprof_show.cache import cache_text
from aprof_show.data import csv_text, json_text
from aprof_show.detail import detail, notes
from aprof_show.heading import fault_lines, open_lines
from aprof_show.inputs import ROUTINE_HINT, joined, name_by_image, read_all
from aprof_show.joining import CannotJoin, join_caches, tell_alike
from aprof_show.kinship import many_new, repeated, strange_pair, strangers, without_contexts
from aprof_show.limits import above, above_text, cut_short, not_judged, of_one_input, unjudged, unreturned
from aprof_show.model import CacheReport, Context, Profile, Report, Routine
from aprof_show.names import shorten
from aprof_show.options import choice_of, parser
from aprof_show.output import drop_output, error_text, print_lines, say
from aprof_show.plot import plot
from aprof_show.reading import BadReport
from aprof_show.rows import WRITERS, Row, rows_of
from aprof_show.source import BadImage, demangle, lines_of_image, name_routines, read_symbols
from aprof_show.stacks import callgrind, folded
from aprof_show.table import summary
from aprof_show.terminal import width
from aprof_show.tree import callers_text, tree_text
from aprof_show.words import Refused, all_named, called_by, check, check_page, kind_of, sort_words


def main(arguments: Sequence[str] | None = None) -> int:
    """The exit status."""
    if sys.stdout is None:
        say("standard output is closed")
        return 2
    if isinstance(sys.stdout, io.TextIOWrapper):
        sys.stdout.reconfigure(errors="replace")
    try:
        status = run(parser().parse_intermixed_args(arguments))
        sys.stdout.flush()
        return status
    except (Refused, BadReport, BadImage, CannotJoin, page.MissingPackage) as error:
        say(str(error))
    except KeyboardInterrupt:
        return 130
    except BrokenPipeError:
        drop_output()
        return 0
    except OSError as error:
        say(error_text(error))
        if error.filename is None:
            drop_output()
    return 2


def run(options: argparse.Namespace) -> int:
    if options.version:
        print(called.version())
        return 0
    paths, names = sort_words(options)
    reports = read_all(paths, ROUTINE_HINT)
    if isinstance(reports[0], CacheReport):
        if names:
            raise Refused(f"no file {names[0]}, and a report of `aprof cache` takes no routine")
        check(options, names, "a report of `aprof cache`")
        print_lines(caches_text(reports, options))
        return 0
    if options.image:
        name_by_image(reports, options.image)
    profile = joined(reports)
    wants_lines = options.image and (names or options.callgrind or options.page is not None)
    lines = lines_of_image(options.image, (routine.entry for routine in profile.routines), True) if wants_lines else {}
    demangle(profile.routines)
    shorten(profile.routines)
    tell_alike(profile.routines)
    if options.against is not None and options.page is None:
        return compare(options, profile, names)
    wanted = all_named(profile.routines, names)
    check(options, names, kind_of(options, names))
    warn([*repeated(profile.reports), *strangers(profile.reports), *without_contexts(profile.reports)])
    check_order(options.by, profile)
    if options.fail_above is not None:
        return judge(profile, rows_of(profile), options, wanted)
    return show(options, profile, wanted, lines)


def warn(warnings: Iterable[str]) -> None:
    for warning in warnings:
        say(f"warning: {warning}")


def caches_text(reports: Sequence[Report | CacheReport], options: argparse.Namespace) -> list[str]:
    caches = [report for report in reports if isinstance(report, CacheReport)]
    if len(caches) < len(reports):
        raise CannotJoin("reports of `aprof cache` can't be joined with others")
    warn(repeated(caches))
    cache = join_caches(caches)
    routines = [Routine(routine.entry, routine.name, apart=routine.apart) for routine in cache.routines]
    if options.image:
        name_routines(routines, read_symbols(options.image), options.image)
    demangle(routines)
    shorten(routines)
    tell_alike(routines)
    labels = {counted: routine.label for counted, routine in zip(cache.routines, routines)}
    return cache_text(cache, choice_of(options), width(), labels)


def show(options: argparse.Namespace, profile: Profile, wanted: set[Routine], lines: dict[int, str]) -> int:
    if options.page is not None:
        check_page(options.page, [report.path for report in profile.reports], options.image)
        page.write_page(options.page, profile, rows_of(profile), lines)
    elif options.json:
        print(json_text(profile, rows_of(profile), wanted))
    elif options.csv:
        print(csv_text(profile, wanted))
    elif options.open:
        print_lines([*fault_lines(profile), *(open_lines(profile, width()) or ["all calls had returned"])])
    elif options.tree or options.callers or options.folded or options.callgrind:
        show_contexts(options, profile, roots_of(profile), wanted, lines)
    elif wanted:
        chosen = [row for row in rows_of(profile) if row.routine in wanted]
        for row in chosen:
            print_lines(detail(row, width(), lines.get(row.routine.entry)))
            print_lines(plot(row.routine, width()) if options.plot else [])
        print_lines(notes(chosen, width()))
    else:
        print_lines(summary(profile, rows_of(profile), choice_of(options), width()))
    return 0


def check_order(by: str | None, profile: Profile) -> None:
    if by == "self":
        roots_of(profile)
    if by in WRITERS and any(routine.points and not routine.parts for routine in profile.routines):
        raise Refused(f"--by {by} needs a report of version 2, which tells who wrote the input")


def roots_of(profile: Profile) -> list[Context]:
    if profile.roots is None:
        raise Refused("this needs calling contexts, which `aprof contexts` stores in place of `aprof run`")
    return profile.roots


def show_contexts(
    options: argparse.Namespace, profile: Profile, roots: list[Context], wanted: set[Routine], lines: dict[int, str]
) -> None:
    least = 0.01 if options.min is None else options.min
    least = 0.0 if options.all else least
    if options.folded:
        print_lines(folded(profile, roots))
    elif options.callgrind:
        print_lines(callgrind(profile, roots, options.image, lines))
    elif options.tree:
        print_lines(tree_text(profile, roots, least, width(), wanted))
    else:
        for routine in called_by(profile.routines, options.callers):
            print_lines(callers_text(profile, roots, routine, least, width()))


def compare(options: argparse.Namespace, new: Profile, names: Sequence[str]) -> int:
    old = joined(read_all([options.against]))
    demangle(old.routines)
    shorten(old.routines)
    tell_alike(old.routines)
    old_rows, new_rows = rows_of(old), rows_of(new)
    wanted = all_named([*new.routines, *old.routines], names)
    for pair in paired(old_rows, new_rows):
        both = {row.routine for row in (pair.old, pair.new) if row}
        wanted |= both if both & wanted else set()
    check(options, names, kind_of(options, names))
    for reports in (old.reports, new.reports):
        warn([*repeated(reports), *strangers(reports), *without_contexts(reports)])
    warn([*strange_pair(old.reports, new.reports), *many_new(options.against, new.reports)])
    print_lines(against_text(old_rows, new_rows, (old.steps, new.steps), choice_of(options), width(), wanted))
    return judge(new, new_rows, options, wanted) if options.fail_above is not None else 0


def judge(profile: Profile, rows: Sequence[Row], options: argparse.Namespace, wanted: set[Routine]) -> int:
    limit, choice = options.fail_above, choice_of(options)
    warn([*cut_short(profile), *unreturned(profile, wanted), *unjudged(rows, wanted), *of_one_input(profile, rows, wanted, choice)])
    found = above(rows, limit, wanted, choice)
    print_lines([*above_text(found, limit), *not_judged(rows, limit, wanted, choice)])
    return 1 if found else 0
