//! Between the library's MAX6957 registers and the second double's, field by field.

use ratchetelm::{PortConfig, PortRegisters, Transition};
use second_double::PortDriver;

/// The library's registers with a port driver's fields.
pub fn registers(driver: &PortDriver) -> PortRegisters {
    PortRegisters {
        stored: driver.stored,
        pins: driver.pins,
        pairs: driver.pairs,
        currents: driver.currents,
        global: driver.global,
        test: driver.test,
        config: PortConfig {
            m: driver.m,
            i: driver.i,
            s: driver.s,
        },
        transition: Transition {
            mask: driver.mask,
            snapshot: driver.snapshot,
            detecting: driver.detecting,
            interrupt: driver.interrupt,
        },
    }
}

/// The second double's port driver with the registers' fields.
pub fn driver(registers: &PortRegisters) -> PortDriver {
    let (config, transition) = (registers.config, registers.transition);
    PortDriver {
        stored: registers.stored,
        pins: registers.pins,
        pairs: registers.pairs,
        currents: registers.currents,
        global: registers.global,
        test: registers.test,
        m: config.m,
        i: config.i,
        s: config.s,
        mask: transition.mask,
        snapshot: transition.snapshot,
        detecting: transition.detecting,
        interrupt: transition.interrupt,
    }
}

/// Every field by name, after those of the record.
pub fn fields(driver: &PortDriver, mut add: impl FnMut(&str, &[u8])) {
    add("port_stored", &driver.stored.to_be_bytes());
    add("port_pins", &driver.pins.to_be_bytes());
    add("port_pairs", &driver.pairs);
    add("port_currents", &driver.currents);
    add("port_global", &[driver.global]);
    add("port_test", &[driver.test]);
    add("port_m", &[driver.m]);
    add("port_i", &[driver.i]);
    add("port_s", &[driver.s]);
    add("port_mask", &[driver.mask]);
    add("port_snapshot", &[driver.snapshot]);
    add("port_detecting", &[driver.detecting]);
    add("port_interrupt", &[driver.interrupt]);
}
