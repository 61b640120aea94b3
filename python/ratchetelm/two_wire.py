"""A two-wire bus of MAX6955: the records of a chain, their addresses, and the state of the bus."""

from __future__ import annotations

import contextlib
import copy
from typing import Any, Iterator, TypeVar

from .answers import Byte
from .arguments import Bytes, byte_string, number, place
from .chain import C, Chain
from .records import BusState, Straps
from .refused import served

SomeBus = TypeVar("SomeBus", bound="Bus")


class Bus:
    """Parts at power-up with these addresses, and an idle bus.

    `parts` is a Chain: scans, pin levels, clocks and questions of a part are its calls.

        >>> bus = Bus([0x60])
        >>> bus.write_registers(0x60, 0x04, [0x01])
        >>> bus.read_registers(0x60, 0x04, 1).hex()
        '81'

    Buses are equal where their parts, addresses and states are, and a copy, deep or not, has parts of its own.
    """

    parts: Chain
    straps: Straps
    state: BusState

    def __init__(self, addresses: Bytes) -> None:
        given = byte_string(addresses, "addresses")
        self.parts = Chain(len(given))
        self.straps = Straps(given.ljust(16, b"\0"))
        self.state = BusState()
        # Any call is refused where two parts have one address or an address is above 127: so such a bus isn't made.
        self._call("max6955_stop")

    def __eq__(self, other: object) -> bool:
        if not isinstance(other, Bus):
            return NotImplemented
        return self.parts == other.parts and self.straps == other.straps and self.state == other.state

    def __repr__(self) -> str:
        addresses = self.straps.addresses[: len(self.parts)]
        return f"<Bus of parts at {', '.join(f'0x{address:02X}' for address in addresses)}, {self.state!r}>"

    def __copy__(self: SomeBus) -> SomeBus:
        return copy.deepcopy(self)

    def _call(self, name: str, *arguments: Any) -> Any:
        answer = getattr(C, name)(self.parts.records, len(self.parts), self.state, self.straps, *arguments)
        served(answer.number)
        self.state = answer.bus
        return answer

    def start(self) -> None:
        """A start: the bus awaits a slave byte."""
        self._call("max6955_start")

    def stop(self) -> None:
        """A stop: the bus is idle."""
        self._call("max6955_stop")

    def write(self, byte: int) -> Byte:
        """A byte that the controller gives."""
        answer = self._call("max6955_write", number(byte, 8, "a byte"))
        return Byte(answer.acknowledged == 1, answer.data)

    def read(self) -> Byte:
        """A byte that the controller asks for."""
        answer = self._call("max6955_read")
        return Byte(answer.acknowledged == 1, answer.data)

    def write_registers(self, address: int, register: int, data: Bytes) -> None:
        """A whole write: the slave byte, the command address, the data and a stop. OSError where a byte isn't acknowledged."""
        slave, command, given = 2 * number(address, 7, "address"), number(register, 8, "register"), byte_string(data, "data")
        with self._transaction():
            for byte in (slave, command, *given):
                acknowledged(self.write(byte), address)

    def read_registers(self, address: int, register: int, count: int) -> bytes:
        """A whole read: the command address is written, then so many bytes are read after a repeated start, and a stop. OSError likewise."""
        slave, command, count = 2 * number(address, 7, "address"), number(register, 8, "register"), place(count, "count")
        with self._transaction():
            for byte in slave, command:
                acknowledged(self.write(byte), address)
            self.start()
            acknowledged(self.write(slave + 1), address)
            return bytes(acknowledged(self.read(), address) for _ in range(count))

    @contextlib.contextmanager
    def _transaction(self) -> Iterator[None]:
        """A start, and a stop whatever comes in between."""
        self.start()
        try:
            yield
        except BaseException:
            # As a stop leaves it; one that is refused, like the byte before it, would leave the bus open.
            self.state = BusState()
            raise
        self.stop()


def acknowledged(byte: Byte, address: int) -> int:
    """The data of an acknowledged byte."""
    if not byte.acknowledged:
        raise OSError(f"no part acknowledges at address 0x{address:02X}")
    return byte.data
