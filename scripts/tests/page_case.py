"""What the tests of the page share: a page of a profile, open in a browser."""
from __future__ import annotations

import tempfile
import unittest
from pathlib import Path

from aprof_show import page
from aprof_show.model import Point, Profile
from aprof_show.rows import rows_of
from tests import profiles
from tests.browser import CHROMIUM, Browser

MISSING = [package for package, there in (("chromium", CHROMIUM), ("libjs-chart.js", page.LIBRARY.exists())) if not there]
TIP = "[...document.querySelectorAll('#tip dd')].map((value) => value.textContent)"
"""The numbers that are shown of a point."""


def text_of(selector: str) -> str:
    return f"document.querySelector({selector!r}).textContent"


@unittest.skipIf(MISSING, f"left out, as these packages are missing: {', '.join(MISSING)}")
class PageCase(unittest.TestCase):
    """A browser for all tests of a class; after each one no page may have complained."""

    browser: Browser
    folder: tempfile.TemporaryDirectory[str]

    @classmethod
    def setUpClass(cls) -> None:
        cls.folder = tempfile.TemporaryDirectory(prefix="aprof-page-")
        cls.browser = Browser()
        cls.addClassCleanup(cls.folder.cleanup)
        cls.addClassCleanup(cls.browser.__exit__, None, None, None)

    def setUp(self) -> None:
        self.browser.resize(1280, 1200)
        self.browser.complaints.clear()

    def tearDown(self) -> None:
        self.assertEqual(self.browser.complaints, [])

    def open(self, profile: Profile, fragment: str = "") -> Path:
        path = Path(self.folder.name, f"{self.id().rsplit('.', 1)[1]}.html")
        lines = {routine.entry: f"words.c:{routine.name}" for routine in profile.routines}
        page.write_page(str(path), profile, rows_of(profile), lines)
        self.browser.requests.clear()
        self.browser.open(path, fragment)
        return path

    def open_sample(self, routine: str = "add_posting") -> list[Point]:
        """The sample with this routine chosen, and its points."""
        profile = profiles.sample()
        self.open(profile, f"#routine={routine}")
        [points] = [one.points for one in profile.routines if one.name == routine]
        return points

    def ask(self, expression: str) -> object:
        return self.browser.ask(expression)

    def shown(self) -> object:
        return self.ask(text_of("#name"))
