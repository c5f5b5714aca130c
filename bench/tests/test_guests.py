"""The guests of run.py and storms.py: how long they are, and that they jump only inside themselves."""
from __future__ import annotations

import unittest
from collections.abc import Iterator

import run
import storms
from guests import BASE, EXIT, HEADERS, Code, addi, branch, image, jal, jal_offset, number, signed

JAL, BRANCH = 0x6F, 0x63
SIZES = {
    "a loop": 7,
    "2048 instructions in a loop": 2056,
    "a load and a store, 1 page": 19,
    "a load and a store, 1024 pages": 19,
    "calls and returns": 9,
    "recursion, 1000 deep": 17,
    "two threads and a futex": 42,
    "64 KiB read and written": 17,
    "calls that store and load, stamps of 8 bits": 13,
}
"""The words of the guests whose host instructions are counted."""


def offset(word: int) -> int | None:
    """How many bytes behind itself a jump or a branch goes, or None for another instruction."""
    if word & 127 == JAL:
        return jal_offset(word)
    if word & 127 == BRANCH:
        return signed(word >> 31 << 12 | (word >> 7 & 1) << 11 | (word >> 25 & 63) << 5 | (word >> 8 & 15) << 1, 13)
    return None


def targets(code: list[int]) -> Iterator[float]:
    """The words that a code's jumps and branches go to."""
    yield from (k + found / 4 for k, word in enumerate(code) if (found := offset(word)) is not None)


class Guests(unittest.TestCase):
    def test_words(self) -> None:
        self.assertEqual({guest.name: len(guest.make(guest.steps)) for guest in run.COUNTED}, SIZES)

    def test_as_many_words_for_any_length(self) -> None:
        for guest in [*run.TIMED, *run.COUNTED, *run.LONG]:
            self.assertEqual(len(guest.make(guest.steps)), len(guest.make(2 * guest.steps)), guest.name)

    def test_jumps(self) -> None:
        codes = {guest.name: guest.make(guest.steps) for guest in [*run.TIMED, *run.COUNTED, *run.LONG]}
        codes |= {storm.name: storm.make(storm.rounds) for storm in storms.STORMS}
        codes["a tick"] = storms.ticking(300, 10, 64)
        for name, code in codes.items():
            self.assertTrue(set(targets(code)) <= set(range(len(code))), name)
            self.assertTrue(all(0 <= word < 2**32 for word in code), name)


class Codes(unittest.TestCase):
    def test_number(self) -> None:
        self.assertEqual(number(8, 0x12345FFF), [0x12346437, addi(8, 8, -1)])

    def test_labels(self) -> None:
        code = Code()
        code.jump(0, "end")
        code.label("loop")
        code.branch(1, 8, 0, "loop")
        code.address(5, "end")
        code.label("end")
        self.assertEqual(code.finish(), [jal(0, 16), branch(1, 8, 0, 0), *number(5, BASE + HEADERS + 16)])

    def test_image(self) -> None:
        self.assertEqual(len(image(EXIT)), HEADERS + 4 * len(EXIT))


if __name__ == "__main__":
    unittest.main()
