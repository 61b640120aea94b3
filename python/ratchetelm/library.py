"""The shared library with its calls, typed as include/ratchetelm.h has them."""

from __future__ import annotations

import ctypes
import os
import pathlib
from ctypes import POINTER, c_size_t, c_uint8, c_uint16, c_uint32, c_uint64
from typing import Any, Dict, Tuple

from . import __version__
from .records import BusState, Device, Straps

NAME, FILE = "RATCHETELM_LIB", "libratchetelm.so"
HERE = pathlib.Path(__file__).resolve().parent
# Where it is looked for: an installed package has it inside, a checkout where make lib puts it.
FOLDERS = HERE, HERE.parents[1] / "target" / "lib"
# The system's, by the name that make install gives it: another record layout has another name.
SONAME = f"{FILE}.{__version__.rpartition('.')[0]}"


def answer(*names: Any, number: Any = c_uint8) -> Any:
    """An answer of a call: its number, then these fields."""
    fields = [("number", c_uint8)] + [name if isinstance(name, tuple) else (name, number) for name in names]
    return type("Answer", (ctypes.Structure,), {"_fields_": fields})


RECORDS, BYTES, WORDS, TOTALS = POINTER(Device), POINTER(c_uint8), POINTER(c_uint16), POINTER(c_uint64)
CHAIN = (RECORDS, c_size_t)
LENT_BYTES, LENT_WORDS, LENT_TOTALS = (BYTES, c_size_t), (WORDS, c_size_t), (TOTALS, c_size_t)
BUS = (BusState, Straps)
STATE = ("bus", BusState)

# Each call: what it gives back, then what it takes.
CALLS: Dict[str, Tuple[Any, ...]] = {
    "max6954_power_up": (Device,),
    "max6957_power_up": (Device,),
    "max6954_access": (c_uint8, *CHAIN, c_size_t, *LENT_BYTES, *LENT_BYTES),
    "max6954_scan": (c_uint8, *CHAIN, c_size_t, c_uint8, c_uint8, c_uint8, c_uint8),
    "max6954_set_pins": (c_uint8, *CHAIN, c_size_t, c_uint32),
    "max6954_add_clocks": (c_uint8, *CHAIN, c_size_t, c_uint32),
    "max6954_segments": (answer(("pins", c_uint8 * 19)), *CHAIN, c_size_t, c_size_t, *LENT_WORDS, *LENT_WORDS),
    "max6954_brightness": (answer("sixteenths", "ruler"), *CHAIN, c_size_t, c_size_t),
    "max6954_shown": (answer("plane"), *CHAIN, c_size_t),
    "max6954_interrupt": (answer("raised"), *CHAIN, c_size_t),
    "max6954_answer_mark": (answer("mark"), *CHAIN, c_size_t),
    "max6957_ports": (answer(("ports", c_uint8 * 28)), *CHAIN, c_size_t),
    "max6954_look_back": (answer("byte"), *CHAIN, c_size_t, c_size_t, c_size_t, *LENT_WORDS),
    "max6954_plane_shown": (answer("plane"), *CHAIN, c_size_t, *LENT_BYTES, *LENT_BYTES, c_size_t, c_size_t),
    "max6954_plan": (answer("accesses", number=c_size_t), *CHAIN, *LENT_BYTES, *LENT_WORDS),
    "max6954_plan_check": (answer("accepted"), *CHAIN, *LENT_BYTES, *LENT_WORDS),
    "max6954_lit_time": (answer("drivers", number=c_size_t), *LENT_BYTES, *LENT_TOTALS),
    "max6955_start": (answer(STATE), *CHAIN, *BUS),
    "max6955_stop": (answer(STATE), *CHAIN, *BUS),
    "max6955_write": (answer(STATE, "acknowledged", "data"), *CHAIN, *BUS, c_uint8),
    "max6955_read": (answer(STATE, "acknowledged", "data"), *CHAIN, *BUS),
}


def path() -> str:
    """The library that is loaded: that of the folder in RATCHETELM_LIB, else the first that is there. A relative folder is one of the current folder."""
    named = os.environ.get(NAME)
    if named:
        return os.path.join(os.path.abspath(named), FILE)
    return next((str(folder / FILE) for folder in FOLDERS if (folder / FILE).is_file()), SONAME)


def load() -> ctypes.CDLL:
    """The library, each call with its types."""
    try:
        library = ctypes.CDLL(path())
    except OSError as error:
        raise ImportError(f"{error}; make lib makes it, and {NAME} may name another folder") from None
    for name, (gives, *takes) in CALLS.items():
        call = getattr(library, name)
        call.restype, call.argtypes = gives, takes
    return library
