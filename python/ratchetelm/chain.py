"""A chain of drivers: its records, and the calls on them."""

from __future__ import annotations

import ctypes
from collections.abc import Sequence
from typing import Any, Dict, List, Type, TypeVar

from . import library, names
from .answers import Brightness, Pin, Port, Ruler, port_of
from .arguments import Bytes, Words, byte_string, elements, lent_bytes, lent_words, number, place, word_list
from .records import Device
from .refused import served

C = library.load()
SomeChain = TypeVar("SomeChain", bound="Chain")

MOST_DRIVERS = 16
MOST_CLOCKS = 4096
MOST_ACCESSES = 32
POWER_UPS = {"MAX6954": C.max6954_power_up, "MAX6957": C.max6957_power_up}


class Chain:
    """Drivers at power-up, nearest the controller first, counted from 1 in each call.

    `Chain(2)` has two MAX6954. `Chain.of` names the part of each, so that a chain may have MAX6957 too:

        >>> Chain.of("MAX6954", "MAX6957").records[1].by_name()["global-current"]
        0

    `records` is the array of their records, as C has them: it may be read and written between calls. Chains are equal where their records are,
    and a copy, deep or not, has records of its own.
    """

    records: ctypes.Array[Device]

    def __init__(self, n: int) -> None:
        n = place(n, "n")
        if not 1 <= n <= MOST_DRIVERS:
            served(1)
        self.records = (Device * n)(*[C.max6954_power_up() for _ in range(n)])

    @classmethod
    def of(cls: Type[SomeChain], *parts: str) -> SomeChain:
        """A chain of these parts, "MAX6954" or "MAX6957", driver 1's first."""
        for part in parts:
            if not isinstance(part, str):
                raise TypeError(f"a part must be str, not {type(part).__name__}")
            if part not in POWER_UPS:
                raise ValueError(f"{part!r} isn't one of {', '.join(POWER_UPS)}")
        chain = cls(len(parts))
        for k, part in enumerate(parts):
            chain.records[k] = POWER_UPS[part]()
        return chain

    def __len__(self) -> int:
        return len(self.records)

    def __eq__(self, other: object) -> bool:
        if not isinstance(other, Chain):
            return NotImplemented
        return list(self.records) == list(other.records)

    def __repr__(self) -> str:
        return f"<Chain of {', '.join(names.part(record) for record in self.records)}>"

    def __getstate__(self) -> Dict[str, Any]:
        return {**self.__dict__, "records": list(self.records)}

    def __setstate__(self, state: Dict[str, Any]) -> None:
        self.__dict__.update(state)
        self.records = (Device * len(state["records"]))(*state["records"])

    def _call(self, name: str, *arguments: Any) -> Any:
        return getattr(C, name)(self.records, len(self), *arguments)

    def _ask(self, name: str, driver: int, *arguments: Any) -> Any:
        answer = self._call(name, place(driver, "driver"), *arguments)
        served(answer.number)
        return answer

    def access(self, clocks: int, sent: Bytes) -> bytes:
        """Clocks through the chain; bits are packed first bit highest. Gives the answer bytes."""
        clocks = place(clocks, "clocks")
        # More are refused, whatever the room.
        room, size = lent_bytes(bytes((min(clocks, MOST_CLOCKS) + 7) // 8), "room")
        served(self._call("max6954_access", clocks, *lent_bytes(sent, "sent"), room, size))
        return bytes(room)

    def _words(self, words: Words, name: str) -> List[int]:
        given = word_list(words, name)
        if len(given) != len(self):
            raise ValueError(f"{len(given)} words for {len(self)} drivers")
        return given

    def send(self, *words: int) -> List[int]:
        """An access of 16 clocks for each driver, a word to each, driver 1's first. Gives the words answered, driver 1's first."""
        sent = b"".join(word.to_bytes(2, "big") for word in reversed(self._words(words, "words")))
        answer = self.access(16 * len(self), sent)
        return [int.from_bytes(answer[k : k + 2], "big") for k in range(len(answer) - 2, -1, -2)]

    def scan(self, driver: int, a: int = 0, b: int = 0, c: int = 0, d: int = 0) -> None:
        """A key scan of one driver: the closed keys of groups A to D, bit k for key k."""
        keys = [number(closed, 8, group) for group, closed in zip("abcd", (a, b, c, d))]
        served(self._call("max6954_scan", place(driver, "driver"), *keys))

    def set_pins(self, driver: int, levels: int) -> None:
        """The pin levels of one driver: five of a MAX6954, bit k is Pk, or 28 of a MAX6957, bit k is port k+4."""
        served(self._call("max6954_set_pins", place(driver, "driver"), number(levels, 32, "levels")))

    def add_clocks(self, driver: int, clocks: int) -> None:
        """Master clocks given to one driver, any number of 32 bits; accesses give none."""
        served(self._call("max6954_add_clocks", place(driver, "driver"), number(clocks, 32, "clocks")))

    def plane(self, driver: int, p0: Bytes, p1: Bytes, first: int, last: int) -> bytes:
        """Digits first to last, both included, of the plane that a driver shows, of two lent planes of 16 digits."""
        planes = byte_string(p0, "p0"), byte_string(p1, "p1")
        first, last = place(first, "first"), place(last, "last")
        answer = self._ask("max6954_plane_shown", driver, *lent_bytes(planes[0], "p0"), *lent_bytes(planes[1], "p1"), first, last)
        return planes[answer.plane][first : last + 1]

    def segments(self, driver: int, cathode: int, font14: Words, font16: Words) -> List[Pin]:
        """The pins O0 to O18 of a cathode under two glyph tables of 128 words, for 14 and for 16 segments."""
        fonts = *lent_words(font14, "font14"), *lent_words(font16, "font16")
        return [Pin(pin) for pin in self._ask("max6954_segments", driver, place(cathode, "cathode"), *fonts).pins]

    def brightness(self, driver: int, digit: int) -> Brightness:
        """The brightness of a digit and what rules it: digits 0 to 7, then 8 to 15 for 0a to 7a."""
        answer = self._ask("max6954_brightness", driver, place(digit, "digit"))
        return Brightness(answer.sixteenths, Ruler(answer.ruler))

    def shown(self, driver: int) -> int:
        """The plane that a driver shows: 0 for P0, 1 for P1."""
        return int(self._ask("max6954_shown", driver).plane)

    def interrupt(self, driver: int) -> bool:
        """Whether a driver's interrupt is raised."""
        return bool(self._ask("max6954_interrupt", driver).raised)

    def answer_mark(self, driver: int) -> bool:
        """Whether the word that a driver last took was a read, so that its shift word is an answer."""
        return bool(self._ask("max6954_answer_mark", driver).mark)

    def ports(self, driver: int) -> Dict[int, Port]:
        """What each port of a MAX6957 drives, by its number, 4 to 31."""
        return {p: port_of(code) for p, code in enumerate(self._ask("max6957_ports", driver).ports, names.FIRST_PORT)}

    def look_back(self, driver: int, plane: int, digit: int, words: Words) -> int:
        """The byte of a digit in plane 0 or 1 that a driver would have after taking these words in order."""
        asked = place(plane, "plane"), place(digit, "digit"), *lent_words(words, "words")
        return int(self._ask("max6954_look_back", driver, *asked).byte)

    def plan(self, wanted: Bytes) -> List[List[int]]:
        """The fewest accesses that lead to wanted planes, 32 bytes a driver, P0 then P1, driver 1's first: the words of each, for `send`."""
        room, size = lent_words([0] * (MOST_ACCESSES * len(self)), "room")
        answer = self._call("max6954_plan", *lent_bytes(wanted, "wanted"), room, size)
        served(answer.number)
        return [list(room[k * len(self) : (k + 1) * len(self)]) for k in range(answer.accesses)]

    def plan_check(self, wanted: Bytes, accesses: Sequence[Words]) -> bool:
        """Whether such accesses lead to the wanted planes, with no words but digit writes, no-ops and clears."""
        each = enumerate(elements(accesses, "accesses", "a sequence of accesses"))
        words = [word for k, access in each for word in self._words(access, f"accesses[{k}]")]
        answer = self._call("max6954_plan_check", *lent_bytes(wanted, "wanted"), *lent_words(words, "accesses"))
        served(answer.number)
        return bool(answer.accepted)
