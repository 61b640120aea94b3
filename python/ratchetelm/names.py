"""The registers by name: those of a MAX6954 as tools/script has them, those of a MAX6957 after Table 3 of its data sheet.

What a register stores isn't always what a read of it gives: configuration reads the blink phase too, GPIO data and ports the levels of inputs.
"""

from __future__ import annotations

import textwrap
from typing import TYPE_CHECKING, Dict

if TYPE_CHECKING:
    from .records import Device, PortRegisters, Registers

# The part of each family number; the MAX6955 is of the MAX6954's.
PARTS = ("MAX6954", "MAX6957")
GROUPS = "abcd"
INTENSITIES = "10 32 54 76 10a 32a 54a 76a".split()
DIGITS = "0 1 2 3 4 5 6 7 0a 1a 2a 3a 4a 5a 6a 7a".split()
CURRENTS = "054 076 098 0ba 0dc 0fe 110 132 154 176 198 1ba 1dc 1fe".split()
FIRST_PORT, PORTS = 4, 28


def part(device: Device) -> str:
    """The part that a record is of, "MAX6954" or "MAX6957", or the number of a family that isn't known."""
    return PARTS[device.family] if device.family < len(PARTS) else f"family {device.family}"


def registers(device: Device) -> Dict[str, int]:
    """What is stored in each register of a record's family, in the order of their addresses; none where the family isn't known."""
    if part(device) == "MAX6954":
        return max6954(device.registers)
    return max6957(device.ports) if part(device) == "MAX6957" else {}


def max6954(held: Registers) -> Dict[str, int]:
    """What is stored in each register of a MAX6954 or MAX6955. 0x08 to 0x0C name one register as written and another as read."""
    controls, config = held.controls, held.config
    groups = [(group, getattr(held.keys, group)) for group in GROUPS]
    return {
        "decode-mode": controls.decode,
        "global-intensity": controls.global_,
        "scan-limit": controls.limit,
        "configuration": config.i << 6 | config.e << 3 | config.b << 2 | config.s,
        "gpio-data": controls.gpio,
        "port-configuration": controls.ports,
        "display-test": controls.test,
        **{f"key-mask-{name}": group.mask for name, group in groups},
        **{f"debounced-{name}": group.debounced for name, group in groups},
        "digit-type": controls.types,
        **{f"pressed-{name}": group.pressed for name, group in groups},
        **{f"intensity-{name}": byte for name, byte in zip(INTENSITIES, held.intensities)},
        **{f"digit-{name}-p0": byte for name, byte in zip(DIGITS, held.planes.p0)},
        **{f"digit-{name}-p1": byte for name, byte in zip(DIGITS, held.planes.p1)},
    }


def max6957(held: PortRegisters) -> Dict[str, int]:
    """What is stored in each register of a MAX6957; what 0x40 to 0x5F write and read are its ports, one by one."""
    config = held.config
    return {
        "global-current": held.global_,
        "configuration": config.m << 7 | config.i << 6 | config.s,
        "transition-detect-mask": held.transition.mask,
        "display-test": held.test,
        **{f"port-configuration-p{4 * k + 7}-p{4 * k + 4}": byte for k, byte in enumerate(held.pairs)},
        **{f"current-{name}": byte for name, byte in zip(CURRENTS, held.currents)},
        **{f"port-{k + FIRST_PORT}": held.stored >> k & 1 for k in range(PORTS)},
    }


def others(device: Device) -> Dict[str, int]:
    """What a record has beside its shift word and the registers of its family, by the name of its field."""
    found = {"answer_mark": device.answer_mark, "fitted": device.fitted, "command": device.command}
    if part(device) == "MAX6954":
        keys = device.registers.keys
        found.update({"pins": device.registers.pins, "blink": device.registers.blink, "interrupt": keys.interrupt})
        found.update({f"held-{group}": getattr(keys, group).held for group in GROUPS})
    elif part(device) == "MAX6957":
        transition = device.ports.transition
        found.update({"pins": device.ports.pins, "snapshot": transition.snapshot, "detecting": transition.detecting})
        found["interrupt"] = transition.interrupt
    return found


def text(device: Device) -> str:
    """A record in words: its part and its shift word, then all that isn't 0, registers by their names. Only the blink count is decimal."""
    named = {**others(device), **registers(device)}
    told = [f"{name}={value if name == 'blink' else format(value, '02X')}" for name, value in named.items() if value]
    return textwrap.fill(f"<{' '.join([part(device), f'shift={device.shift:04X}', *told])}>", 120, subsequent_indent="  ", break_on_hyphens=False)
