"""What stands beside a growth, and what it means: the same signs in every table, and each told below a table that has it."""
from __future__ import annotations

from collections.abc import Iterable

from aprof_show.growth import FAR_APART, LEAST_LARGEST, Growth
from aprof_show.terminal import factor_text

STEEP, MANY, RISING, WEAK = "!", "*", "^", "~"
MEANINGS = {
    STEEP: "superlinear: faster than n log n, at least at the largest sizes",
    MANY: "called so often that its caller is superlinear",
    RISING: "rises from size to size: steeper than this at larger ones, so watch it",
    WEAK: f"uncertain: few sizes, below {LEAST_LARGEST}, within a factor of {FAR_APART}, or less steep at the end",
}


def growth_text(growth: Growth | None) -> str:
    """The factor with the sign behind it."""
    if growth is None:
        return "- "
    return factor_text(growth.factor) + (WEAK if growth.weak else RISING if growth.rising is not None else " ")


def marked(growth: Growth | None, many: bool = False) -> str:
    """With the sign before it too."""
    return sign_of(growth, many) + growth_text(growth)


def sign_of(growth: Growth | None, many: bool) -> str:
    return STEEP if growth and growth.superlinear else MANY if many else ""


def legend(texts: Iterable[str]) -> list[str]:
    """The meanings of the signs that are in these texts of growths."""
    signs = "".join(texts)
    return [f"{sign} {meaning}" for sign, meaning in MEANINGS.items() if sign in signs]
