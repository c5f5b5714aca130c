"""The page of `show --page` in headless Chromium: its head, its table, and how it looks."""
from __future__ import annotations

import math
import time
import unittest
from pathlib import Path
from unittest import mock

from aprof_show import page
from aprof_show.model import Profile, Report
from aprof_show.rows import rows_of
from tests import profiles
from tests.page_case import PageCase, text_of

NAMES = "[...document.querySelectorAll('#routines tbody td.name')].map((cell) => cell.textContent)"


class Files(unittest.TestCase):
    def test_a_missing_library_is_named_with_its_package(self) -> None:
        profile = profiles.sample()
        with mock.patch.object(page, "LIBRARY", Path("/nowhere/chart.js")), self.assertRaises(page.MissingPackage) as caught:
            page.write_page("/dev/null", profile, rows_of(profile), {})
        self.assertIn("libjs-chart.js", str(caught.exception))
        self.assertNotIn("\n", str(caught.exception))


class Pages(PageCase):
    def test_nothing_is_asked_of_the_network(self) -> None:
        path = self.open(profiles.sample())
        self.browser.click("#scale input[value=linear] + span")
        self.assertEqual([url for url in self.browser.requests if url != "about:blank"], [path.as_uri()])
        self.assertNotRegex(path.read_text().replace("http://www.w3.org", ""), r"(src|href)=.?https?:")

    def test_the_head_tells_runs_ends_and_open_calls(self) -> None:
        self.open(profiles.sample("budget"))
        self.assertIn("the budget of instructions was spent", str(self.ask(text_of("#summary"))))
        self.assertIn("_start › main › spin", str(self.ask(text_of("#open"))))
        self.assertIn("out/a", str(self.ask(text_of("#runs tbody"))))
        name = "f(std::vector<std::vector<int> > const&)"
        made = profiles.Made()
        made.context(name, made.context("main", None, []), [])
        self.open(made.profile("report", end="budget", still_open=2))
        self.assertEqual(self.ask(text_of("#open")), f"Still open at the end: main › {name}")
        self.open(made.profile("report", end="budget", still_open=3))
        self.assertIn("\n1 more open call is in no stack: ", str(self.ask(text_of("#open"))))

    def test_the_first_routine_is_shown_with_what_is_known_of_it(self) -> None:
        self.open(profiles.sample())
        self.assertEqual(self.shown(), "add_posting")
        self.assertIn("words.c:add_posting", str(self.ask(text_of("#place"))))
        self.assertIn("×", str(self.ask(text_of("#verdict"))))
        self.assertEqual(self.ask("document.querySelector('#routines tr[aria-current] .rate b').textContent.includes('superlinear')"), True)

    def test_a_click_on_a_heading_sorts(self) -> None:
        self.open(profiles.sample())
        before = self.ask(NAMES)
        self.browser.click("#routines th.share button")
        self.assertEqual(self.ask("document.querySelector('#routines th.share').ariaSort"), "descending")
        shares = self.ask("[...document.querySelectorAll('#routines td.share')].map((cell) => parseFloat(cell.textContent))")
        assert isinstance(shares, list)
        self.assertEqual(shares, sorted(shares, reverse=True))
        self.browser.press("Enter")  # on the heading that has the focus
        self.assertEqual(self.ask("document.querySelector('#routines th.share').ariaSort"), "ascending")
        self.browser.press("Enter")
        self.assertEqual(self.ask(NAMES), before)
        self.browser.click("#routines th.name button")
        names = self.ask(NAMES)
        assert isinstance(names, list)
        self.assertEqual(names, sorted(names, key=str.lower))

    def test_routines_are_filtered_by_name(self) -> None:
        self.open(profiles.sample())
        for held in ("ctrlKey", "altKey", "metaKey"):
            self.ask(f"document.body.dispatchEvent(new KeyboardEvent('keydown', {{key: '/', {held}: true, bubbles: true}}))")
            self.assertEqual(self.ask("document.activeElement.tagName"), "BODY", held)
        self.browser.press("/")
        self.browser.type("STR")
        self.assertEqual(self.ask(NAMES), ["strlen"])
        self.browser.press("Enter")
        self.assertEqual(self.shown(), "strlen")

    def test_cheap_routines_and_the_library_are_shown_on_demand(self) -> None:
        self.open(profiles.sample())
        few = self.ask(NAMES)
        assert isinstance(few, list)
        self.assertNotIn("put_line", few)
        self.assertIn("few", few)  # superlinear, whatever it costs
        self.browser.click("#cheap")
        self.browser.click("#library")
        self.assertEqual(len(self.ask(NAMES)), 14)  # type: ignore[arg-type]

    def test_a_routine_is_chosen_by_click_key_and_link(self) -> None:
        path = self.open(profiles.sample())
        self.browser.click("#routines tbody tr:nth-child(3) td.calls")
        self.assertEqual(self.shown(), "sort_words")
        self.browser.click("#routines tbody tr:nth-child(1) a")
        for key in ("ArrowDown", "ArrowDown", "ArrowUp", "Enter"):
            self.browser.press(key)
        self.assertEqual(self.shown(), "build_index")
        self.assertEqual(self.ask("document.querySelectorAll('#routines tr[aria-current]').length"), 1)
        self.ask("document.querySelector('#routines th.name button').focus()")
        self.browser.press("ArrowDown")
        self.assertEqual(self.ask("document.activeElement.closest('tbody tr').sectionRowIndex"), 0)
        self.browser.open(path, "#routine=square_block")
        self.assertEqual(self.shown(), "square_block")

    def test_a_report_without_routines_is_a_page_too(self) -> None:
        self.open(Profile([Report("empty", "budget", 1000, 2, [], None)], [], None))
        self.assertIn("no call has returned", str(self.ask(text_of("#summary"))))

    def test_names_are_never_html(self) -> None:
        path = self.open(profiles.hostile())
        self.browser.click("#library")
        names = self.ask(NAMES)
        assert isinstance(names, list)
        self.assertEqual(sorted(names), sorted([*profiles.HOSTILE, "<!--<script>"]))
        for routine in range(len(names)):
            self.browser.click(f"#routines tbody tr:nth-child({routine + 1})")
            self.assertEqual(self.shown(), names[routine])
            self.assertIn(names[routine], str(self.ask(text_of("#tree tbody"))))
        self.assertNotIn("caught", str(self.ask("document.title")))
        self.assertEqual(self.ask("document.querySelectorAll('img, b b, td b b').length"), 0)
        self.assertNotIn("<script>document", path.read_text())

    def test_a_phone_has_no_scrolling_aside(self) -> None:
        for profile in (profiles.sample(), profiles.hostile(), profiles.sample("budget")):
            self.browser.resize(375, 700)
            self.open(profile)
            self.browser.click("#tree-kind input[value=all] + span")
            self.assertEqual(self.ask("document.documentElement.scrollWidth"), 375)
            self.assertLess(self.ask("document.querySelector('#cost').getBoundingClientRect().right"), 376)  # type: ignore[misc]

    def test_colours_follow_the_scheme_and_can_be_read(self) -> None:
        path = self.open(profiles.sample())
        grounds = []
        for dark in (False, True):
            self.browser.resize(1280, 1200, dark)
            self.browser.open(path)
            grounds.append(self.ask("getComputedStyle(document.body).backgroundColor"))
            look = self.ask("Object.fromEntries(['ink', 'soft', 'faint', 'accent', 'warn', 'paper', 'tint'].map((name) =>"
                            " [name, getComputedStyle(document.documentElement).getPropertyValue('--' + name).trim()]))")
            assert isinstance(look, dict)
            for name in ("ink", "soft", "faint", "accent", "warn"):
                for ground in ("paper", "tint"):
                    self.assertGreaterEqual(contrast(look[name], look[ground]), 4.5, f"{name} on {ground}, dark {dark}")
        self.assertNotEqual(*grounds)

    def test_five_thousand_routines_can_be_sorted_and_reached(self) -> None:
        self.open(profiles.many(5000))
        start = time.monotonic()
        self.browser.click("#routines th.growth button")
        self.assertLess(time.monotonic() - start, 3)
        self.browser.click("#cheap")
        self.ask("document.querySelector('#routines tbody a').focus()")
        self.browser.press("End")
        self.assertEqual(self.ask("document.querySelectorAll('#routines tbody tr').length"), 5001)
        self.assertEqual(self.ask("document.activeElement.closest('tr').rowIndex"), 5001)
        tops = self.ask("[...Array(60)].map(() => { document.activeElement.dispatchEvent(new KeyboardEvent('keydown',"
                        " {key: 'ArrowUp', bubbles: true})); return document.activeElement.getBoundingClientRect().top; })")
        under = self.ask("document.querySelector('#routines th').getBoundingClientRect().bottom")
        assert isinstance(tops, list) and isinstance(under, float | int)
        self.assertGreater(min(tops), under)

    def test_it_prints_in_light_colours(self) -> None:
        self.browser.resize(1280, 1200, dark=True)
        self.open(profiles.sample())
        self.browser.call("Emulation.setEmulatedMedia", media="print")
        self.assertEqual(self.ask("getComputedStyle(document.querySelector('#tools')).display"), "none")
        self.assertGreater(len(self.browser.call("Page.printToPDF")["data"]), 20000)

    def test_it_prints_all_routines(self) -> None:
        self.open(profiles.many(400))
        self.browser.click("#cheap")
        rows = "document.querySelectorAll('#routines tbody tr').length"
        self.assertLess(self.ask(rows), 401)  # type: ignore[misc]
        self.browser.call("Page.printToPDF")
        self.assertEqual(self.ask(rows), 401)


def contrast(one: str, other: str) -> float:
    """The ratio of WCAG between two colours."""
    light = sorted((luminance(colour) for colour in (one, other)), reverse=True)
    return (light[0] + 0.05) / (light[1] + 0.05)


def luminance(colour: str) -> float:
    parts = [int(colour[i : i + 2], 16) / 255 for i in (1, 3, 5)]
    linear = [part / 12.92 if part <= 0.03928 else math.pow((part + 0.055) / 1.055, 2.4) for part in parts]
    return 0.2126 * linear[0] + 0.7152 * linear[1] + 0.0722 * linear[2]


if __name__ == "__main__":
    unittest.main()
