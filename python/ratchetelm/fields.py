"""Structures and arrays of C whose fields take only a number that they have room for; ctypes would cut it down, and take any name."""

from __future__ import annotations

import ctypes
from ctypes import c_uint8
from typing import Any

from .arguments import byte_string, number


class ByteArray(ctypes.Array[c_uint8]):
    """Bytes of a record: `p0[3] = 0x7F`, `p0[:] = bytes(16)`."""

    _type_ = c_uint8
    _length_ = 0

    def __setitem__(self, at: Any, value: Any) -> None:
        super().__setitem__(at, byte_string(value, "the bytes") if isinstance(at, slice) else number(value, 8, "a byte"))

    def __eq__(self, other: object) -> bool:
        if not isinstance(other, ByteArray):
            return NotImplemented
        return bytes(self) == bytes(other)

    def __repr__(self) -> str:
        return repr(list(self))


class Bytes7(ByteArray):
    """Seven bytes."""

    _length_ = 7


class Bytes8(ByteArray):
    """Eight bytes."""

    _length_ = 8


class Bytes14(ByteArray):
    """Fourteen bytes."""

    _length_ = 14


class Bytes16(ByteArray):
    """Sixteen bytes."""

    _length_ = 16


class Record(ctypes.Structure):
    """A structure whose fields take only what they can hold; two are equal where all their fields are."""

    def __setattr__(self, name: str, value: Any) -> None:
        kind: Any = dict((field[0], field[1]) for field in self._fields_).get(name)
        if kind is None:
            raise AttributeError(f"{type(self).__name__} has no field {name!r}")
        if issubclass(kind, ByteArray):
            getattr(self, name)[:] = value
        elif not issubclass(kind, Record):
            super().__setattr__(name, number(value, 8 * ctypes.sizeof(kind), name))
        elif isinstance(value, kind):
            super().__setattr__(name, value)
        else:
            raise TypeError(f"{name} must be {kind.__name__}, not {type(value).__name__}")

    def __eq__(self, other: object) -> bool:
        if not isinstance(other, type(self)):
            return NotImplemented
        return all(getattr(self, field[0]) == getattr(other, field[0]) for field in self._fields_)

    def __repr__(self) -> str:
        return f"{type(self).__name__}({', '.join(f'{field[0]}={getattr(self, field[0])!r}' for field in self._fields_)})"
