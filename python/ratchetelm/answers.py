"""What the questions give."""

from __future__ import annotations

import enum
from typing import NamedTuple


class Pin(enum.IntEnum):
    """A pin of a cathode."""

    NOT_DRIVEN = 0
    CATHODE = 1
    LIT = 2
    UNLIT = 3
    NO_SEGMENT = 4


class Ruler(enum.IntEnum):
    """What rules the brightness of a digit."""

    GLOBAL = 1
    OWN = 2
    TEST = 3


class Brightness(NamedTuple):
    """The brightness of a digit: 1 to 15 sixteenths, 0 where its cathode is dark, and what rules it."""

    sixteenths: int
    ruler: Ruler


class Drive(enum.IntEnum):
    """How a port of a MAX6957 is driven."""

    UNDRIVEN = 0
    LOW = 1
    HIGH = 2
    LED = 3


class Port(NamedTuple):
    """What a port drives, and the sixteenths of an LED current, 1 to 16; 0 of any other."""

    drive: Drive
    sixteenths: int


class Byte(NamedTuple):
    """What became of a byte on the two-wire bus: whether a part took or drove it, and the data, 255 where none did."""

    acknowledged: bool
    data: int


def port_of(code: int) -> Port:
    """A port as C has it: 2 + s is an LED current of s sixteenths."""
    return Port(Drive(min(code, Drive.LED)), max(code - Drive.HIGH, 0))
