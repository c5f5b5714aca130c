"""The charts and the trees of a routine on the page of `show --page`, as a person uses them."""
from __future__ import annotations

import re
import time
import unittest

from aprof_show.model import Point
from tests import profiles
from tests.page_case import PageCase, TIP, text_of
from tests.samples import points_of

DRAW_LIMIT = 10.0
"""Seconds in which the charts of 100,000 points are drawn, on a machine that is fully loaded with other work (3.6 were seen)."""
HOVER_LIMIT = 2.0
TREE = "[...document.querySelectorAll('#tree tbody tr')].map((row) => [row.ariaLevel, row.querySelector('.label').textContent])"
CANVAS = "[...document.querySelector('#cost').toDataURL()].reduce((sum, letter) => (31 * sum + letter.charCodeAt(0)) | 0, 7)"


def numbers_of(point: Point) -> list[str]:
    """What the page tells of a point that is all its thread's own."""
    mean = f"{int(point.mean + 0.5):,}" if point.mean >= 1000 or point.mean % 1 == 0 else f"{point.mean:.1f}"
    costs = [f"{point.most:,}"] if point.least == point.most else [f"{point.least:,}", mean, f"{point.most:,}"]
    return [f"{point.size:,} word{'' if point.size == 1 else 's'}", f"{point.calls:,}", *costs]


class Charts(PageCase):
    def test_hovering_tells_the_numbers_of_a_real_point(self) -> None:
        points = self.open_sample()
        x, y = self.browser.middle("#cost")
        told = set()
        for aside in (-220, -90, 0, 70, 150, 230):
            self.browser.move(x + aside, y - aside / 3)
            numbers = self.ask(TIP)
            assert isinstance(numbers, list)
            size = int(re.sub(r"\D", "", numbers[0]))
            [point] = [point for point in points if point.size == size]
            self.assertEqual(numbers, numbers_of(point))
            told.add(size)
        self.assertGreater(len(told), 4)
        self.browser.move(5, 5)
        self.assertTrue(self.ask("document.querySelector('#tip').hidden"))

    def test_arrow_keys_read_the_points_out(self) -> None:
        points = self.open_sample()
        self.ask("document.querySelector('#plots').focus()")
        for key, point in (("ArrowRight", points[0]), ("ArrowRight", points[1]), ("End", points[-1]), ("ArrowLeft", points[-2])):
            self.browser.press(key)
            self.assertEqual(self.ask(TIP), numbers_of(point))
            self.assertIn(f"greatest {point.most:,}", str(self.ask(text_of("#said"))))
        self.browser.press("Enter")
        self.assertIn(f"at size {points[-2].size:,};", str(self.ask(text_of("#guides-note"))))

    def test_axes_and_series_change_by_a_click(self) -> None:
        self.open_sample()
        log = self.ask(CANVAS)
        self.browser.click("#scale input[value=linear] + span")
        linear = self.ask(CANVAS)
        self.assertNotEqual(log, linear)
        self.browser.click("button.key.least")
        self.assertEqual(self.ask("document.querySelector('button.key.least').ariaPressed"), "false")
        self.assertNotEqual(self.ask(CANVAS), linear)
        self.browser.click("button.key.least")
        self.browser.click("#scale input[value=log] + span")
        self.browser.move(5, 5)
        self.assertEqual(self.ask(CANVAS), log)

    def test_calls_that_read_nothing_have_linear_axes_alone(self) -> None:
        """And the next routine has logarithmic ones again."""
        made = profiles.Made()
        root = made.context("main", None, profiles.points_of([9000], lambda n: 1e9, calls=1))
        made.context("idle", root, [Point(0, 50, 90, 90, 4500, None)])
        self.open(made.profile("report"), "#routine=idle")
        scale = "[...document.querySelectorAll('#scale input')].map((input) => [input.value, input.checked, input.disabled])"
        self.assertEqual(self.ask(scale), [["log", False, True], ["linear", True, False]])
        self.browser.click("#tree tbody tr:nth-child(2) .label")
        self.assertEqual(self.shown(), "main")
        self.assertEqual(self.ask(scale), [["log", True, False], ["linear", False, False]])

    def test_what_has_no_place_on_logarithmic_axes_does_not_stretch_them(self) -> None:
        made = profiles.Made()
        root = made.context("main", None, profiles.points_of([9000], lambda n: 1e10, calls=1))
        empty = Point(0, 5000, 10**6, 10**6, 5 * 10**9, None)
        made.context("scan", root, [empty, *points_of((n, 5.0 * n) for n in profiles.over(4, 900, 8))])
        self.open(made.profile("report"), "#routine=scan")
        for kind, costs, calls in (("log", 10**4, 9), ("linear", 10**7, 10**4)):
            with self.subTest(kind):
                self.browser.click(f"#scale input[value={kind}] + span")
                for chart, below in (("cost", costs), ("calls", calls)):
                    greatest = self.ask(f"Chart.getChart('{chart}').scales.y.max")
                    assert isinstance(greatest, float | int)
                    self.assertLess(greatest, below)
                    self.assertGreater(greatest, below / 10)

    def test_of_a_column_of_pixels_the_cheapest_and_the_middle_point_are_drawn_too(self) -> None:
        """Though each of them is of one call, whose least and greatest cost are one."""
        for amount, all_three in ((9000, True), (9, False)):
            with self.subTest(amount):
                made = profiles.Made()
                root = made.context("main", None, profiles.points_of([9000], lambda n: 1e10, calls=1))
                made.context("scan", root, profiles.points_of(range(1, amount + 1), lambda n: 90 * n, calls=1, noise=0.5))
                self.open(made.profile("report"), "#routine=scan")
                self.browser.click("#scale input[value=linear] + span")
                drawn = self.ask("Chart.getChart('cost').data.datasets.slice(-3).map(({data}) => data.length)")
                assert isinstance(drawn, list)
                least, mean, most = drawn
                self.assertGreater(most, amount / 30)
                self.assertEqual([one > most / 2 for one in (least, mean)], [all_three, all_three], drawn)

    def test_a_click_on_a_point_moves_the_guides(self) -> None:
        self.open_sample()
        before, note = self.ask(CANVAS), self.ask(text_of("#guides-note"))
        x, y = self.browser.middle("#cost")
        self.browser.click_at(x + 150, y)
        self.assertNotEqual(self.ask(CANVAS), before)
        self.assertNotEqual(self.ask(text_of("#guides-note")), note)

    def test_the_parts_of_the_input_are_drawn_where_others_wrote_it(self) -> None:
        path = self.open(profiles.sample(), "#routine=square_block")
        self.assertFalse(self.ask("document.querySelector('#parts-block').hidden"))
        self.browser.move(*self.browser.middle("#parts"))
        numbers = self.ask(TIP)
        assert isinstance(numbers, list)
        own, thread, kernel = (float(number.rstrip(" %")) for number in numbers[-3:])
        self.assertAlmostEqual(thread, 70, delta=2)
        self.assertAlmostEqual(own + thread + kernel, 100, delta=0.2)
        self.browser.open(path, "#routine=add_posting")
        self.assertTrue(self.ask("document.querySelector('#parts-block').hidden"))
        self.assertIn("all its thread’s own", str(self.ask(text_of("#parts-note"))))

    def test_the_callers_are_a_tree_that_opens(self) -> None:
        self.open_sample()
        whole = [["1", "add_posting"], ["2", "build_index"], ["3", "main"], ["4", "_start"]]
        self.assertEqual(self.ask(TREE), whole)
        self.browser.click("#tree tbody tr:nth-child(2) .twist")
        self.assertEqual(self.ask(TREE), whole[:2])
        self.browser.press("ArrowRight")
        self.assertEqual(self.ask(TREE), whole)
        self.browser.press("ArrowUp")
        self.browser.press("ArrowLeft")
        self.assertEqual(self.ask(TREE), whole[:1])
        self.browser.press("ArrowRight")
        self.browser.click("#tree tbody tr:nth-child(2) .label")
        self.assertEqual(self.shown(), "build_index")

    def test_the_whole_calling_tree_tells_what_was_still_open(self) -> None:
        self.open(profiles.sample("budget"), "#routine=spin")
        self.assertIn("still open", str(self.ask(text_of("#verdict"))))
        self.browser.click("#tree-kind input[value=all] + span")
        rows = self.ask(TREE)
        assert isinstance(rows, list)
        self.assertEqual(rows[:2], [["1", "_start"], ["2", "main"]])
        self.assertIn(["3", "spin"], rows)
        spin = self.ask("[...document.querySelectorAll('#tree tbody tr')].find((row) => row.textContent.includes('spin')).textContent")
        self.assertIn("still open", str(spin))

    def test_without_contexts_there_is_no_self_cost_and_no_tree(self) -> None:
        self.open(profiles.sample(contexts=False))
        self.assertIsNone(self.ask("document.querySelector('#routines .self')"))
        self.assertTrue(self.ask("document.querySelector('#trees').hidden"))

    def test_a_chain_of_ten_thousand_contexts_opens(self) -> None:
        self.open(profiles.deep(10_000))
        self.browser.click("#tree-kind input[value=all] + span")
        self.assertLess(len(self.ask(TREE)), 100)  # type: ignore[arg-type]
        self.ask("document.querySelector('#tree tbody tr:last-child').focus()")
        self.browser.press("ArrowRight")
        self.assertGreater(len(self.ask(TREE)), 40)  # type: ignore[arg-type]

    def test_a_hundred_thousand_points_do_not_stall(self) -> None:
        self.open(profiles.large(100_000))
        for kind in ("linear", "log"):
            self.browser.click(f"#scale input[value={kind}] + span")
        draws = self.ask("performance.getEntriesByName('draw', 'measure').map((entry) => entry.duration / 1000)")
        assert isinstance(draws, list)
        self.assertEqual(len(draws), 3)
        self.assertLess(max(draws), DRAW_LIMIT)
        x, y = self.browser.middle("#cost")
        start = time.monotonic()
        for aside in range(10):
            self.browser.move(x + 20 * aside, y)
        self.assertLess((time.monotonic() - start) / 10, HOVER_LIMIT)
        self.assertIn("words", str(self.ask(TIP)))


if __name__ == "__main__":
    unittest.main()
