"""The records as C has them; include/ratchetelm.h says what each field is.

A field takes only a number that it has room for, and a name that isn't a field's is AttributeError. Whether a record is sound is for the calls to
say, which refuse one that isn't with 7.
"""

from __future__ import annotations

from ctypes import c_size_t, c_uint8, c_uint16, c_uint32
from typing import Dict

from . import names
from .fields import Bytes7, Bytes8, Bytes14, Bytes16, Record


class Controls(Record):
    """The control registers; `global_` is the global intensity, since `global` is a word of Python."""

    decode: int
    global_: int
    limit: int
    gpio: int
    ports: int
    test: int
    types: int
    _fields_ = [(name, c_uint8) for name in ("decode", "global_", "limit", "gpio", "ports", "test", "types")]


class Config(Record):
    """The stored bits of the configuration register, each 0 or 1."""

    i: int
    e: int
    b: int
    s: int
    _fields_ = [(name, c_uint8) for name in ("i", "e", "b", "s")]


class Group(Record):
    """Eight keys of a group, bit k for key k."""

    mask: int
    debounced: int
    pressed: int
    held: int
    _fields_ = [(name, c_uint8) for name in ("mask", "debounced", "pressed", "held")]


class Keys(Record):
    """Key groups A to D, and the interrupt that they share."""

    a: Group
    b: Group
    c: Group
    d: Group
    interrupt: int
    _fields_ = [("a", Group), ("b", Group), ("c", Group), ("d", Group), ("interrupt", c_uint8)]


class Planes(Record):
    """The digit bytes: digits 0 to 7, then 0a to 7a."""

    p0: Bytes16
    p1: Bytes16
    _fields_ = [("p0", Bytes16), ("p1", Bytes16)]


class Registers(Record):
    """All that the registers hold or show."""

    controls: Controls
    config: Config
    intensities: Bytes8
    keys: Keys
    planes: Planes
    pins: int
    blink: int
    _fields_ = [
        ("controls", Controls),
        ("config", Config),
        ("intensities", Bytes8),
        ("keys", Keys),
        ("planes", Planes),
        ("pins", c_uint32),
        ("blink", c_uint32),
    ]


class PortConfig(Record):
    """The stored bits of a MAX6957's configuration register, each 0 or 1."""

    m: int
    i: int
    s: int
    _fields_ = [(name, c_uint8) for name in ("m", "i", "s")]


class Transition(Record):
    """Transition detection, bit k for port k+24."""

    mask: int
    snapshot: int
    detecting: int
    interrupt: int
    _fields_ = [(name, c_uint8) for name in ("mask", "snapshot", "detecting", "interrupt")]


class PortRegisters(Record):
    """All that the registers of a MAX6957 hold or show, bit k for port k+4; `global_` is the global current."""

    stored: int
    pins: int
    pairs: Bytes7
    currents: Bytes14
    global_: int
    test: int
    config: PortConfig
    transition: Transition
    _fields_ = [
        ("stored", c_uint32),
        ("pins", c_uint32),
        ("pairs", Bytes7),
        ("currents", Bytes14),
        ("global_", c_uint8),
        ("test", c_uint8),
        ("config", PortConfig),
        ("transition", Transition),
    ]


class Device(Record):
    """A driver's record: `registers` are those of a MAX6954 or MAX6955, `ports` those of a MAX6957, as `family` says."""

    registers: Registers
    shift: int
    fitted: int
    answer_mark: int
    command: int
    family: int
    ports: PortRegisters
    _fields_ = [
        ("registers", Registers),
        ("shift", c_uint16),
        ("fitted", c_uint8),
        ("answer_mark", c_uint8),
        ("command", c_uint8),
        ("family", c_uint8),
        ("ports", PortRegisters),
    ]

    def by_name(self) -> Dict[str, int]:
        """What is stored in each register of the driver's family, by its name."""
        return names.registers(self)

    def __repr__(self) -> str:
        return names.text(self)


class BusState(Record):
    """What goes on on a two-wire bus."""

    part: int
    phase: int
    _fields_ = [("part", c_size_t), ("phase", c_uint8)]


class Straps(Record):
    """The addresses of sixteen parts."""

    addresses: Bytes16
    _fields_ = [("addresses", Bytes16)]
