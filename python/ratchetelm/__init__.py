"""The bench double of a chain of MAX6954 LED drivers and MAX6957 port drivers, and of a bus of MAX6955, proved in Rattle.

    >>> from ratchetelm import Chain, Refused
    >>> chain = Chain(2)

With 16 clocks for each driver the last driver's word goes first: driver 2 takes 0000, driver 1 takes 0303.

    >>> chain.access(32, bytes.fromhex("00000303")).hex()
    '00000000'
    >>> chain.records[0].registers.controls.limit
    3

`send` does so with words, driver 1's first. Driver 1 is asked for its scan limit; what comes out is the word that it took before.

    >>> [f"{word:04X}" for word in chain.send(0x8300, 0x0000)]
    ['0303', '0000']

The word that it holds now is an answer, and comes out one access later.

    >>> chain.answer_mark(1)
    True
    >>> [f"{word:04X}" for word in chain.send(0x0000, 0x0000)]
    ['8303', '0000']

A call that can't be served raises Refused, with the first number that applies; then no record has changed.

    >>> chain.scan(3)
    Traceback (most recent call last):
    ratchetelm.refused.Refused: 2: driver number not in 1..n

A chain may have MAX6957 too, whose ports drive LED currents and logic levels. In this one P4 is an LED, P5 an output, and both are on.

    >>> gripper = Chain.of("MAX6954", "MAX6957")
    >>> for word in 0x09A4, 0x0209, 0x4003, 0x0401:
    ...     answers = gripper.send(0x0000, word)
    >>> ports = gripper.ports(2)
    >>> ports[4].drive.name, ports[4].sixteenths, ports[5].drive.name, ports[6].drive.name
    ('LED', 10, 'HIGH', 'UNDRIVEN')

A record says what it holds that isn't 0; `by_name` gives all registers of its family, MAX6954's by the names that scripts have.

    >>> gripper.records[1]
    <MAX6957 shift=0401 fitted=FF global-current=09 configuration=01 port-configuration-p7-p4=A4 ...
    >>> gripper.records[0].by_name()["scan-limit"]
    7

`lit_time` runs a whole script, and gives for each driver and cathode the sum of lit segments times sixteenths over the clocks of the run. Here a chain
of 1 is put into display test, 16 segments at 7 sixteenths, and given 10 clocks.

    >>> from ratchetelm import lit_time
    >>> lit_time(bytes.fromhex("5AC3010001 01 5AC3020004 0010 0701 5AC3050005 01 0000000A"))
    [(1120, 1120, 1120, 1120, 1120, 1120, 1120, 1120)]

Bytes are bytes-like or a sequence of numbers, words a sequence of numbers. A wrong type is TypeError, a number that C has no room for ValueError, and
nothing has begun then. Chains and buses are compared by their records, and copied and pickled with them.

The library is that of the folder in RATCHETELM_LIB, else the one inside the package, the one that `make lib` made in target/lib, or the system's.
"""

# It stands first: the system's library is named by it.
__version__ = "0.8.0"

from .answers import Brightness, Byte, Drive, Pin, Port, Ruler
from .chain import Chain
from .records import Device
from .refused import Refused
from .scripts import lit_time
from .two_wire import Bus

__all__ = ["Brightness", "Bus", "Byte", "Chain", "Device", "Drive", "Pin", "Port", "Refused", "Ruler", "lit_time"]
