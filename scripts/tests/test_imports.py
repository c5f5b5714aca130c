"""The scripts build on one another in one direction: neither packages nor modules of one import each other in a circle."""
from __future__ import annotations

import ast
import unittest
from collections.abc import Iterator, Mapping
from pathlib import Path

from aprof_package import TOOLS

SCRIPTS = Path(__file__).resolve().parents[1]
PACKAGES = ("aprof_copy", "aprof_show", "aprof_launch")
"""Each imports only those before it."""


def imported(path: Path) -> Iterator[str]:
    """The modules of the packages that a file imports, in functions too."""
    for node in ast.walk(ast.parse(path.read_text(encoding="utf-8"))):
        if isinstance(node, ast.Import):
            yield from (name.name for name in node.names)
        elif isinstance(node, ast.ImportFrom) and node.module:
            yield from (f"{node.module}.{name.name}" for name in node.names)
            yield node.module


def modules() -> dict[str, set[str]]:
    paths = [path for package in PACKAGES for path in sorted((SCRIPTS / package).glob("*.py"))]
    names = {f"{path.parent.name}.{path.stem}": path for path in paths}
    return {name: {other for other in imported(path) if other in names and other != name} for name, path in names.items()}


def circle(above: Mapping[str, set[str]]) -> list[str]:
    """Modules that are left when those that import nothing that is left are taken away again and again."""
    left = dict(above)
    while free := [name for name, others in left.items() if not others & left.keys()]:
        for name in free:
            del left[name]
    return sorted(left)


class Imports(unittest.TestCase):
    def test_modules(self) -> None:
        self.assertEqual(circle(modules()), [])
        self.assertEqual(circle({"a": {"b"}, "b": {"c"}, "c": {"b"}, "d": set()}), ["a", "b", "c"])

    def test_they_are_packed(self) -> None:
        self.assertLessEqual({f"scripts/{package}" for package in PACKAGES}, set(TOOLS))

    def test_packages(self) -> None:
        for name, others in modules().items():
            below = PACKAGES[: PACKAGES.index(name.split(".")[0]) + 1]
            self.assertEqual([other for other in others if other.split(".")[0] not in below], [], name)


if __name__ == "__main__":
    unittest.main()
