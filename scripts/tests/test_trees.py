"""Self cost, the calling tree, callers, and what was open at the end."""
from __future__ import annotations

import random
import unittest

from aprof_show.costs import chain_text, costs_by_routine, costs_of, open_ends
from aprof_show.joining import join
from aprof_show.model import Context, Profile
from aprof_show.stacks import folded
from aprof_show.heading import fault_lines, open_lines
from aprof_show.tree import callers_of, callers_text, tree_text
from tests.samples import ADDRESSES, Call, Run, random_call, report_of

PLAIN = Call("main", own=10, calls=[Call("parse", own=20, calls=[Call("leaf", own=30)]), Call("leaf", own=40)])
RECURSIVE = Call("main", calls=[Call("parse", 3, 10, [Call("parse", 2, 10, [Call("parse", 1, 10), Call("leaf", 1, 5)])])])
MUTUAL = Call("main", calls=[Call("parse", own=10, calls=[Call("leaf", own=10, calls=[Call("parse", own=10)])])])
HIDING = Call("parse", own=1, calls=[Call("look_up", own=79, calls=[Call("spin", own=1)])])
SPINNING = Call("main", own=10, calls=[
    Call("parse", own=20), Call("parse", own=30, calls=[Call("leaf", own=5), Call("spin", own=900, open=True)]),
])


def profile_of(*threads: Call, end: str = "exit 0") -> Profile:
    return join([report_of(Run(threads, ADDRESSES, end=end).text(contexts=True))])


def roots_of(profile: Profile) -> list[Context]:
    assert profile.roots is not None
    return profile.roots


def deep(chain: list[str], returned: bool) -> Profile:
    """One chain of calls, of a step each, which all returned or none did."""
    head = ["aprof 2", "end deep", f"steps {len(chain)}", f"open {0 if returned else len(chain)}"]
    costs: dict[str, list[int]] = {}
    lines = []
    for level, name in enumerate(chain):
        cost = len(chain) - level
        costs.setdefault(name, []).append(cost)
        lines += [f"context {level} {ADDRESSES[name]:08x}"] + [f"0 1 {cost} {cost} {cost} 0 0 0 0"] * returned
    for name in sorted(costs if returned else (), key=lambda name: ADDRESSES[name]):
        mine = costs[name]
        head.append(f"routine {ADDRESSES[name]:08x} {name}")
        head.append(f"0 {len(mine)} {min(mine)} {max(mine)} {sum(mine)} 0 0 0 0")
    done = [f"done {len(costs) if returned else 0}", "contexts 1"]
    return join([report_of("\n".join([*head, *done, *lines, f"done {len(chain)}"]) + "\n")])


class Costs(unittest.TestCase):
    def own(self, *threads: Call) -> dict[str, tuple[int, int, bool]]:
        roots = roots_of(profile_of(*threads))
        sums = costs_by_routine(roots, costs_of(roots))
        return {routine.label: (cost.total, cost.own, cost.open) for routine, cost in sums.items()}

    def test_plain(self) -> None:
        self.assertEqual(self.own(PLAIN), {"main": (100, 10, False), "parse": (50, 20, False), "leaf": (70, 70, False)})

    def test_recursion_counts_once(self) -> None:
        self.assertEqual(self.own(RECURSIVE)["parse"], (35, 30, False))
        self.assertEqual(self.own(MUTUAL)["parse"], (30, 20, False))

    def test_own_costs_add_up_to_the_steps(self) -> None:
        for seed in range(40):
            profile = profile_of(*(random_call(random.Random(seed + place)) for place in range(3)))
            self.assertEqual(sum(cost.own for cost in costs_of(roots_of(profile)).values()), profile.steps)

    def test_open(self) -> None:
        """What had not returned has the least cost that is sure, and none below zero."""
        costs = self.own(SPINNING)
        self.assertEqual(costs["parse"], (20, 15, True))
        self.assertEqual(costs[f"{ADDRESSES['main']:08x}"], (20, 0, True))
        self.assertEqual(costs[f"{ADDRESSES['spin']:08x}"], (0, 0, True))


class OpenAtTheEnd(unittest.TestCase):
    def test_chain(self) -> None:
        profile = profile_of(SPINNING, end="budget")
        spin = f"{ADDRESSES['spin']:08x}"
        self.assertEqual(open_lines(profile, 80)[0], f"open at the end: {ADDRESSES['main']:08x} > parse > {spin}")
        self.assertIn("--image IMAGE names", "".join(open_lines(profile, 80)))

    def test_fault(self) -> None:
        """The line on a fault tells its place, which the stacks may not have."""
        profile = profile_of(SPINNING, end="fault 3 2 00011f60")
        self.assertEqual(fault_lines(profile), ["the fault: no readable byte, thread 2, at 00011f60"])
        self.assertEqual(fault_lines(profile_of(SPINNING, end="budget")), [])

    def test_what_no_row_has(self) -> None:
        """Where most of the instructions went is said where only open calls had them, and not where they are few."""
        says = "97.9% of all instructions are of calls that had not returned, and are in no row; --folded has them under this stack"
        self.assertEqual(open_lines(profile_of(SPINNING, end="budget"), 200)[1], says)
        two = open_lines(profile_of(SPINNING, Call("look_up", own=900, open=True), end="budget"), 200)
        self.assertEqual(two[2], says.replace("97.9", "98.9").replace("under this stack", "as [open_at_the_end]"))
        few = profile_of(Call("main", own=4, open=True, calls=[Call("parse", own=96)]), end="budget")
        self.assertFalse(any("in no row" in line for line in open_lines(few, 200)))

    def test_more_than_are_sure(self) -> None:
        """A second thread in the same routines is open too, and only the number tells."""
        profile = profile_of(SPINNING, SPINNING, end="deadlock")
        lines = open_lines(profile, 80)
        self.assertLessEqual(max(map(len, lines)), 80)
        self.assertIn(
            "3 more open calls are in no stack: their routines had returned there before, or other threads have the same stacks",
            " ".join(line.strip() for line in lines),
        )

    def test_equal_chains_are_told_once(self) -> None:
        threads = [Call("main", calls=[Call(name, open=True)]) for name in ("spin", "leaf", "look_up")]
        profile = profile_of(*threads, end="deadlock")
        for routine, name in zip(profile.routines, ("main", "phil", "phil", "eat")):
            routine.shown = name
        chains = [line for line in open_lines(profile, 80) if line.startswith("open at the end")]
        self.assertEqual(chains, ["open at the end: main > eat", "open at the end: main > phil"])

    def test_long_chains(self) -> None:
        profile = deep(["main"] + ["parse"] * 30_000 + ["leaf"], returned=False)
        roots = roots_of(profile)
        (end,) = open_ends(roots, costs_of(roots))
        self.assertIn("(x30000)", chain_text(end))
        self.assertLess(len("\n".join(tree_text(profile, roots, 0.01, 80))), 2000)
        self.assertEqual(len(list(folded(profile, roots))), 1)

    def test_lines_are_wrapped(self) -> None:
        names = [f"a_routine_with_a_long_name_{number}" for number in range(9)]
        chain = Call(names[-1], open=True)
        for name in reversed(names[:-1]):
            chain = Call(name, calls=[Call(name), chain])
        run = Run([chain, *map(Call, names)], {name: 0x10000 + 16 * place for place, name in enumerate(names)}, end="budget")
        lines = open_lines(join([report_of(run.text(contexts=True))]), 80)
        self.assertLessEqual(max(map(len, lines)), 80)
        self.assertIn(names[-1], lines[4])

    def test_plain_report(self) -> None:
        profile = join([report_of(Run([SPINNING], ADDRESSES, end="budget").text())])
        self.assertEqual(" ".join(open_lines(profile, 80)).replace("     ", " "),
                         "3 calls had not returned, whose own cost is in no row; `aprof contexts` stores which")


class Trees(unittest.TestCase):
    def test_tree(self) -> None:
        profile = profile_of(PLAIN)
        self.assertEqual(tree_text(profile, roots_of(profile), 0.35, 80)[1:], [
            "   WITH   ITS",
            "CALLEES   OWN GROWTH CALLS  ROUTINE",
            " 100.0% 10.0%     -      1  main",
            "  50.0% 20.0%     -      1    parse (+1)",
            "  40.0% 40.0%     -      1    leaf",
            "(+N) calls N more routines, each for less than 35.0% of all instructions",
        ])

    def test_recursion_is_one_line(self) -> None:
        profile = profile_of(RECURSIVE)
        self.assertEqual(tree_text(profile, roots_of(profile), 0, 80)[3:], [
            " 100.0%  2.8%     -      1  main",
            "  97.2% 83.3%  x1.7~     3    parse (recursive)",
            "  13.9% 13.9%     -      1      leaf",
            "~ uncertain: few sizes, below 16, within a factor of 4, or less steep at the end",
        ])

    def test_recursion_by_another_is_not_followed_again(self) -> None:
        profile = profile_of(MUTUAL)
        self.assertEqual([line.split("  ")[-1].strip() for line in tree_text(profile, roots_of(profile), 0, 80)[3:]], [
            "main", "parse", "leaf", "parse (again)",
        ])
        profile = profile_of(Call("main", calls=[Call("parse", 1, 1, [Call("leaf", 1, 1, [HIDING])])]))
        lines = tree_text(profile, roots_of(profile), 0, 80)
        self.assertEqual([line.split("     1  ")[-1].strip() for line in lines if "again" in line], [
            "parse (again)  (not shown: 95.2% in look_up)", "(again) is not followed again; what has most of its cost there is named, with its callees",
        ])
        self.assertIn("(not shown: 95.2% in look_up)", [line.strip() for line in tree_text(profile, roots_of(profile), 0, 50)])
        leaf = next(routine for routine in profile.routines if routine.name == "leaf")
        parse = next(routine for routine in profile.routines if routine.name == "parse")
        for routine, ways in ((leaf, ["leaf", "parse", "main"]), (parse, ["parse (recursive)", "leaf", "main", "main"])):
            text = callers_text(profile, roots_of(profile), routine, 0, 80)
            self.assertEqual(sorted(line.split("   ")[-1].strip() for line in text[3:]), sorted(ways))

    def test_callers(self) -> None:
        profile = profile_of(PLAIN)
        leaf = next(routine for routine in profile.routines if routine.name == "leaf")
        top = callers_of(leaf, roots_of(profile), costs_of(roots_of(profile)))
        self.assertEqual((top.total, top.calls), (70, 2))
        self.assertEqual({node.routine.label: node.total for node in top.below.values()}, {"parse": 30, "main": 40})
        text = callers_text(profile, roots_of(profile), leaf, 0.01, 80)
        self.assertEqual(text[2].split(), ["CALLS", "COST", "CALLEES", "GROWTH", "CALLED", "BY"])
        self.assertEqual([line.split()[-1] for line in text[3:]], ["leaf", "main", "parse", "main"])

    def test_callers_of_deep_recursion(self) -> None:
        """Direct and mutual recursion of some thousand levels takes no time that grows with its square."""
        for links in (["parse"], ["parse", "look_up"]):
            profile = deep(["main"] + links * 4_000 + ["leaf"], returned=True)
            roots = roots_of(profile)
            for routine in profile.routines:
                self.assertTrue(callers_text(profile, roots, routine, 0.01, 80))
            self.assertLess(len(tree_text(profile, roots, 0, 80)), 12)
            self.assertEqual(sum(cost.own for cost in costs_of(roots).values()), profile.steps)
