"""The page of `show --page`: what a routine calls, what has most of its cost, and links that lead nowhere."""
from __future__ import annotations

import unittest

from aprof_show.joining import join
from aprof_show.model import Profile
from tests import profiles
from tests.page_case import PageCase, text_of
from tests.samples import ADDRESSES, Call, Run, points_of, report_of
from tests.test_causes import SIZES, never_returned, recursive, through_a_list
from tests.test_growth import POSTINGS, SPREAD
from tests.test_reasons import linear, squares, through_one

CALLEES = "[...document.querySelectorAll('#callees tbody tr')].map((row) => [...row.cells].map((cell) => cell.textContent))"
HIDDEN = "document.querySelector('{}').hidden"
FOCUSED = "document.activeElement.id || document.activeElement.tagName"


def profile_of(*calls: Call) -> Profile:
    return join([report_of(Run([Call("main", 9, 1, calls)], ADDRESSES).text(contexts=True))])


class Causes(PageCase):
    def test_the_cause_is_a_link(self) -> None:
        self.open(profile_of(*map(through_a_list, SIZES)), "#routine=parse")
        self.assertEqual(self.ask(text_of("#cause")), "99.8 % of its cost is in look_up with its callees, called 238 times; each of those calls is about linear in its own input, "
                         "so it is their number, and perhaps what each of them reads, that grows.")
        self.browser.click("#cause a")
        self.assertEqual(self.shown(), "look_up")
        self.assertIn("is in compare with its callees, called 10,783 times", str(self.ask(text_of("#cause"))))
        self.browser.click("#callees tbody a")
        self.assertEqual(self.shown(), "compare")
        self.assertEqual([self.ask(HIDDEN.format(place)) for place in ("#cause", "#callees")], [True, True])

    def test_the_focus_follows_to_the_detail(self) -> None:
        """From a link or a row that goes with the routine before, and not from one that stays."""
        cases = (("parse", "#cause a", "look_up", "detail"), ("parse", "#callees tbody a", "look_up", "detail"),
                 ("look_up", "#callees tbody a", "compare", "detail"), ("parse", "#tree tbody tr:nth-child(2)", "main", "detail"),
                 ("main", "#routines tbody tr:first-child a", "parse", "A"))
        for name, place, wanted, focused in cases:
            with self.subTest(name=name, place=place):
                self.open(profile_of(*map(through_a_list, SIZES)), f"#routine={name}")
                self.assertEqual(self.ask(FOCUSED), "BODY")
                self.ask(f"document.querySelector('{place}').focus()")
                self.browser.press("Enter")
                self.assertEqual((self.shown(), self.ask(FOCUSED)), (wanted, focused))

    def test_a_cause_that_never_returned_is_open(self) -> None:
        self.open(never_returned(), f"#routine={ADDRESSES['main']:x}")
        self.assertEqual(self.ask(text_of("#cause")), "100.0 % of its cost so far is in parse with its callees, still open.")
        self.assertEqual(str(self.ask(f"{CALLEES}[0][1]")), "open")

    def test_the_culprit_is_marked(self) -> None:
        """In the list of all routines and in that of what is called, and an indirect way is told."""
        self.open(profile_of(*map(through_one, SIZES)), "#routine=parse")
        self.assertIn("called 238 times, indirectly through spin; each of those calls", str(self.ask(text_of("#cause"))))
        self.assertEqual(self.ask(text_of("#callees .culprit .name")), "spin")
        self.assertEqual(self.ask(text_of("#callees caption")), "What it calls directly")
        marked = "[...document.querySelectorAll('#routines tr')].filter((row) => row.querySelector('.many')).map((row) => row.cells[5].textContent)"
        self.assertEqual(self.ask(marked), ["look_up"])
        self.assertIn("∗×2.0", str(self.ask(text_of("#routines .many b"))))

    def test_a_bound_stands_alone(self) -> None:
        """Of an open routine, however small its part is, and not of one that is known."""
        made = profiles.Made()
        root = made.context("main", None, [])
        made.context("load", root, profiles.points_of([9000], lambda n: 1e9, calls=1))
        made.context("leaf", made.context("spin", root, []), profiles.points_of([4], lambda n: 90, calls=1))
        for name, part in (("main", "≥100.0 %"), ("spin", "≥0.0 %"), ("leaf", "<0.1 %")):
            with self.subTest(name):
                self.open(made.profile("report", end="budget", still_open=2), f"#routine={name}")
                self.assertEqual(self.ask(text_of("#facts > div:nth-child(2) dd")), part)
        shares = "[...document.querySelectorAll('#routines tbody tr')].map((row) => row.querySelector('.share').textContent)"
        self.assertIn("≥0.0", self.ask(shares))  # type: ignore[arg-type]

    def test_the_key_has_what_the_page_uses(self) -> None:
        """Each badge of the listed routines, and nothing else."""
        superlinear, uncertain = "superlinear: faster", "uncertain: few sizes"
        too_often, rising, dash = "called so often", "rises from size", "its growth is unknown"
        made = profiles.Made()
        root = made.context("main", None, profiles.points_of([9000], lambda n: 1e9, calls=1))
        made.context("rises", root, points_of([(size, float(cost)) for size, cost in POSTINGS]))
        cases: list[tuple[Profile, list[str]]] = [
            (profile_of(*map(through_a_list, SIZES)), [superlinear, too_often, dash]),
            (profile_of(*map(linear, SIZES)), [dash]),
            (profile_of(*map(squares, SIZES[:3])), [f"superlinear, but {uncertain}", dash]),
            (made.profile("report"), [superlinear, rising, dash]),
            (profiles.sample("budget"), [superlinear, f"superlinear, but {uncertain}", uncertain, dash, "at least: a call was still open"]),
        ]
        for profile, wanted in cases:
            with self.subTest(wanted):
                self.open(profile)
                entries = self.ask("[...document.querySelectorAll('#key > span')].map((entry) => entry.textContent)")
                assert isinstance(entries, list)
                self.assertEqual([part for part, entry in zip(wanted, entries) if part in entry], wanted, entries)
                self.assertEqual(len(entries), len(wanted), entries)

    def test_what_is_not_listed_is_told(self) -> None:
        path = self.open(profiles.sample())
        self.assertEqual(self.ask(HIDDEN.format("#unlisted")), True)
        self.browser.press("/")
        self.browser.type("strlen")
        self.assertIn("Not listed: 3 marked: add_posting ×4.1, build_index ×3.8, few ×", str(self.ask(text_of("#unlisted"))))
        self.assertIn("To see them, clear the filter.", str(self.ask(text_of("#unlisted"))))
        self.browser.open(path)
        made = profiles.Made()
        root = made.context("main", None, profiles.points_of([9000], lambda n: 1e9, calls=1))
        for name in ("memcpy", None, "malloc", "free", "strlen", "memset"):
            made.context(name, root, profiles.points_of(profiles.over(8, 900, 8), lambda n: n * n))
        self.open(made.profile("report"))
        told = str(self.ask(text_of("#unlisted")))
        self.assertRegex(told, r"^Not listed: 6 marked \(6 of the C library, 1 without a name\): .* and 3 more\.")
        self.assertIn("To see them, tick “C library”.", told)
        made.context("_Znwj", root, profiles.points_of(profiles.over(8, 900, 8), lambda n: n * n))
        self.open(made.profile("report"))
        told = str(self.ask(text_of("#unlisted")))
        self.assertRegex(told, r"\(7 of the C\+\+ library, .* tick “C\+\+ library”\.$")
        self.browser.click("#library")
        self.assertEqual(self.ask(HIDDEN.format("#unlisted")), True)

    def test_what_is_marked_for_its_calls_may_be_cheap(self) -> None:
        self.open(profile_of(*map(through_a_list, SIZES), Call("leaf", 9, 10**8)))
        self.assertEqual(self.ask(text_of("#unlisted")), "Not listed: 1 marked: look_up ∗×2.0. To see them, tick “below 1 %”.")
        self.browser.press("/")
        self.browser.type("leaf")
        told = "Not listed: 2 marked: look_up ∗×2.0, parse ×3.9. To see them, clear the filter"
        self.assertEqual(self.ask(text_of("#unlisted")), f"{told} and tick “below 1 %”.")
        self.browser.click("#cheap")
        self.assertEqual(self.ask(text_of("#unlisted")), f"{told}.")

    def test_callees(self) -> None:
        """Dearest first, direct recursion left out, and of a routine with many the first ones."""
        names = [name for name in ADDRESSES if name not in ("main", "parse")]
        many = [Call("parse", n, 1, [Call(name, n, n) for name in names]) for n in SIZES]
        cases = [
            (profile_of(*map(recursive, SIZES)), "parse", [["100.0", "10", "×2.0", "leaf"]]),
            (profile_of(*map(through_a_list, SIZES)), "parse", [["99.8", "238", "×2.0", "look_up"]]),
            (profile_of(*map(through_a_list, SIZES)), "look_up", [["90.0", "10,783", "–", "compare"]]),
        ]
        for profile, name, wanted in cases:
            with self.subTest(name=name, wanted=wanted):
                self.open(profile, f"#routine={name}")
                self.assertEqual(self.ask(CALLEES), wanted)
        self.open(profile_of(*many, *map(through_a_list, SIZES)), "#routine=main")
        self.assertEqual(self.ask(CALLEES + ".length"), 1)
        self.assertEqual(self.ask(HIDDEN.format("#callees tfoot")), True)

    def test_growth_that_rises_and_growth_of_the_mean(self) -> None:
        made = profiles.Made()
        root = made.context("main", None, profiles.points_of([9000], lambda n: 1e9, calls=1))
        made.context("rises", root, points_of([(size, float(cost)) for size, cost in POSTINGS]))
        made.context("bent", root, SPREAD[0][1])
        for name, part in (("rises", "grows ×2.3, and ×2.5 at the largest sizes, where it still rises: between n log n and n², so watch it."),
                           ("bent", "its mean cost grows ×1.6: less than linear. Costs at one size differ, so that is of the mean; ")):
            with self.subTest(name):
                self.open(made.profile("report"), f"#routine={name}")
                self.assertIn(part, str(self.ask(text_of("#verdict"))))
                steep = "document.querySelector('#facts dd').classList.contains('steep')"
                self.assertEqual(self.ask(steep), name == "rises")
                if name == "rises":
                    self.assertIn("greatest cost7.47 Mestimate at twice the size≈ 19 M", str(self.ask(text_of("#facts"))))

    def test_without_contexts(self) -> None:
        self.open(profiles.sample(contexts=False), "#routine=main")
        self.assertEqual([self.ask(HIDDEN.format(place)) for place in ("#cause", "#callees")], [True, True])

    def test_a_dash_says_why(self) -> None:
        self.open(profile_of(*map(recursive, SIZES), *map(through_a_list, SIZES)), "#routine=compare")
        cells = "[...document.querySelectorAll('#tree tbody td:nth-child(4)')]"
        self.assertEqual(self.ask(f"{cells}.filter((cell) => !cell.textContent).length"), 0)
        self.assertEqual(self.ask(f"{cells}.every((cell) => cell.textContent !== '–' || cell.firstChild.title)"), True)

    def test_links(self) -> None:
        """A name, its address in any form, and what is none."""
        profile = profile_of(*map(recursive, SIZES))
        for word, name, unknown in (("leaf", "leaf", True), ("10100", "leaf", True), ("0x10100", "leaf", True),
                                    ("00010100", "leaf", True), ("nosuch", "parse", False), ("%zz", "parse", True)):
            with self.subTest(word=word):
                self.open(profile, f"#routine={word}")
                self.assertEqual((self.shown(), self.ask(HIDDEN.format("#unknown"))), (name, unknown))
        self.open(profile, "#routine=nosuch")
        self.assertEqual(self.ask(text_of("#unknown")), "There is no routine “nosuch” in this profile.")

    def test_the_way_back_is_to_the_first_routine(self) -> None:
        """Whatever the order and the filter are by then."""
        self.open(profiles.sample())
        self.browser.click("#routines th.name button")
        self.browser.press("/")
        self.browser.type("load")
        self.browser.press("Enter")
        self.assertEqual(self.shown(), "load")
        self.ask("history.back()")
        self.browser.wait(text_of("#name") + " === 'add_posting'")

    def test_no_scrolling_aside(self) -> None:
        self.open(profiles.sample())
        self.assertEqual(self.ask("document.querySelector('#rows').scrollWidth - document.querySelector('#rows').clientWidth"), 0)


if __name__ == "__main__":
    unittest.main()
