"""What the calls take, tested before anything is called: a wrong type is TypeError, a number that C has no room for is ValueError."""

from __future__ import annotations

import ctypes
import operator
from collections.abc import Sequence
from ctypes import c_size_t, c_uint8, c_uint16
from typing import Any, List, Optional, Tuple, Union

# Bytes are bytes-like with elements of one byte, or a sequence of numbers; words are a sequence of numbers, and never bytes. An iterator is neither.
Bytes = Union[bytes, bytearray, memoryview, ctypes.Array[Any], Sequence[int]]
Words = Union[ctypes.Array[Any], Sequence[int]]


def number(value: int, bits: int, name: str) -> int:
    """A number of so many bits; True is 1. ctypes would cut a larger one down, and the call would serve another number."""
    try:
        value = operator.index(value)
    except TypeError:
        raise TypeError(f"{name} must be a whole number, not {type(value).__name__}") from None
    if value < 0:
        raise ValueError(f"{name} is below 0")
    if value >> bits:
        raise ValueError(f"{name} is 0x{value:02X}, which isn't a number of {bits} bits")
    return value


def place(value: int, name: str) -> int:
    """A driver, digit, cathode, plane or number of clocks, as large as C has them."""
    return number(value, 8 * ctypes.sizeof(c_size_t), name)


def view(values: Any) -> Optional[memoryview]:
    """The memory of bytes, arrays and the like; None where there is none."""
    try:
        return memoryview(values)
    except TypeError:
        return None


def wrong(values: Any, name: str, kind: str) -> TypeError:
    """The error for values that aren't of their kind."""
    seen = view(values)
    return TypeError(f"{name} must be {kind}, not {type(values).__name__}" + (f" of {seen.itemsize}-byte elements" if seen is not None else ""))


def elements(values: Any, name: str, kind: str) -> List[Any]:
    """The elements of a sequence or array, whatever they are."""
    if isinstance(values, str) or (not isinstance(values, Sequence) and view(values) is None):
        raise wrong(values, name, kind)
    try:
        return list(values)
    except (NotImplementedError, TypeError):  # a memoryview in a format that Python can't read, a single structure
        raise wrong(values, name, kind) from None


def byte_string(values: Bytes, name: str) -> bytes:
    """Bytes."""
    kind = "bytes or a sequence of numbers"
    seen = view(values)
    if seen is None:
        return bytes(number(each, 8, f"{name}[{k}]") for k, each in enumerate(elements(values, name, kind)))
    if seen.ndim != 1 or seen.itemsize != 1:
        raise wrong(values, name, kind)
    return seen.tobytes()


def word_list(values: Words, name: str) -> List[int]:
    """Words of 16 bits."""
    kind = "a sequence of words"
    seen = view(values)
    if seen is not None and seen.itemsize == 1:
        raise wrong(values, name, kind)
    return [number(each, 16, f"{name}[{k}]") for k, each in enumerate(elements(values, name, kind))]


def lent_bytes(values: Bytes, name: str) -> Tuple[ctypes.Array[c_uint8], int]:
    """Bytes to lend, and how many."""
    given = byte_string(values, name)
    return (c_uint8 * len(given)).from_buffer_copy(given), len(given)


def lent_words(values: Words, name: str) -> Tuple[ctypes.Array[c_uint16], int]:
    """Words to lend, and how many."""
    given = word_list(values, name)
    return (c_uint16 * len(given))(*given), len(given)
