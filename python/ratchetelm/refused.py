"""The numbers that a call may give, and their words, in the order in which they are tested."""

from __future__ import annotations

from typing import Dict

TEXTS: Dict[int, str] = {
    9: "script longer than 65,536 bytes",
    1: "the chain has 0 or more than 16 records",
    2: "driver number not in 1..n",
    3: "more than 4,096 clocks in one access",
    4: "sent bytes fewer than the clocks need",
    5: "room for answer bytes fewer than the clocks need",
    6: "cathode above 7, pin levels above 31 (over 28 bits for a MAX6957), a digit (alone or in a range) above 15, a plane above 1, "
    "a range's last digit below its first, a lent plane not 16 long, or a glyph table not 128 long",
    7: "some record of the chain isn't sound, or the bus state isn't",
    10: "two parts with one address",
    11: "address above 127",
    14: "a family number unknown in some record, or a call that the named driver, or for the planner, its check and the two-wire bus "
    "any driver, lacks",
    12: "wanted planes not 32 bytes a driver",
    13: "room for the list too small for the shortest",
}


class Refused(Exception):
    """A call that was refused: no record and no lent byte has changed. `words` says what its `number` means."""

    number: int
    words: str

    def __init__(self, number: int) -> None:
        # The number alone is the argument, from which pickle and copy make it again.
        super().__init__(number)
        self.number = number
        self.words = TEXTS[number]

    def __str__(self) -> str:
        return f"{self.number}: {self.words}"


def served(number: int) -> None:
    """Raises Refused for any number but 0."""
    if number:
        raise Refused(number)
