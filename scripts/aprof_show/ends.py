"""How a run may end, in words."""
from __future__ import annotations

FAULTS = (
    "no instruction of RV32IMA",
    "no code there",
    "no readable byte",
    "no writable byte",
    "a jump to an address that is not aligned",
    "an atomic operation that is not aligned",
    "EBREAK",
)
"""What went wrong at a fault, by its number from 1 on."""

OTHERS = {
    "budget": "the budget of instructions was spent",
    "deadlock": "deadlock: all threads wait",
    "deep": "too many calls were open at once",
}


def ended(end: str) -> str:
    """What stands behind `end` in a report, in words."""
    kind, *numbers = end.split()
    if kind == "fault":
        return f"fault ({FAULTS[int(numbers[0]) - 1]}) in thread {numbers[1]} at {numbers[2]}"
    if kind == "schedule":
        return f"line {numbers[0]} of the schedule can\u2019t be followed"
    return OTHERS.get(kind, end)
