"""What is asked of a whole script, which is run on a chain of its own."""

from __future__ import annotations

from ctypes import c_uint64
from typing import List, Tuple

from .arguments import Bytes, lent_bytes
from .chain import C, MOST_DRIVERS
from .refused import served

CATHODES = 8


def lit_time(script: Bytes) -> List[Tuple[int, ...]]:
    """The lit time of a run: the totals of each driver, driver 1's first, of which each is a tuple of eight, cathodes 0 to 7.

    The script is run as the panel program runs it, on MAX6954 at power-up. A total is the sum, over every master clock given to its driver, of lit
    segments times sixteenths of brightness at that clock. Here both drivers of a chain of 2 leave shutdown, and driver 2 is given 1,000 clocks; each of
    its cathodes shows 0 twice, 12 segments, at one sixteenth.

        >>> script = bytes.fromhex("5AC3010001 02 5AC3020006 0020 04010401 5AC3050005 02 000003E8")
        >>> for totals in lit_time(script):
        ...     print(totals)
        (0, 0, 0, 0, 0, 0, 0, 0)
        (12000, 12000, 12000, 12000, 12000, 12000, 12000, 12000)

    A malformed record, or a chain record that isn't first, ends the run, and what ran counts. Refused with 9, or with 1 for the length in the chain
    record.
    """
    room = (c_uint64 * (MOST_DRIVERS * CATHODES))()
    answer = C.max6954_lit_time(*lent_bytes(script, "script"), room, len(room))
    served(answer.number)
    return [tuple(room[CATHODES * k : CATHODES * (k + 1)]) for k in range(answer.drivers)]
