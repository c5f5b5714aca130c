"""The picture of the crates."""
from __future__ import annotations

import unittest

import crate_graph

LIST = """\
# The bottom.
low:
left: low std
right: low
tests: left
top: left right low tests
"""


class CrateGraph(unittest.TestCase):
    def test_words_of_the_kit_are_no_crates(self) -> None:
        self.assertEqual(crate_graph.read(LIST)["left"], {"low"})

    def test_an_arrow_that_others_imply_is_left_out(self) -> None:
        self.assertEqual(crate_graph.reduced(crate_graph.read(LIST))["top"], {"right", "tests"})

    def test_what_stands_on_a_crate_that_is_left_out_stands_on_what_that_does(self) -> None:
        self.assertEqual(crate_graph.without(crate_graph.read(LIST), {"tests"})["top"], {"left", "right"})

    def test_the_page_has_the_picture(self) -> None:
        page = crate_graph.PAGE.read_text()
        self.assertEqual(crate_graph.page_with(page, crate_graph.picture()), page, "run scripts/crate_graph.py --write")


if __name__ == "__main__":
    unittest.main()
