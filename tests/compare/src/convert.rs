//! Between the library's record and the second double's, field by field, and a record as text.

use crate::port_convert;
use ratchetelm::{Config, Controls, Device, Group, Keys, Planes, Registers};
use second_double::Record;

/// The library's record with a record's fields.
pub fn device(record: &Record) -> Device {
    let group = |k: usize| Group {
        mask: record.mask[k],
        debounced: record.debounced[k],
        pressed: record.pressed[k],
        held: record.held[k],
    };
    Device {
        registers: Registers {
            controls: controls(record),
            config: Config {
                i: record.i,
                e: record.e,
                b: record.b,
                s: record.s,
            },
            intensities: record.intensities,
            keys: Keys {
                a: group(0),
                b: group(1),
                c: group(2),
                d: group(3),
                interrupt: record.interrupt,
            },
            planes: Planes {
                p0: record.p0,
                p1: record.p1,
            },
            pins: record.pins,
            blink: record.blink,
        },
        shift: record.shift,
        fitted: record.fitted,
        answer_mark: record.answer_mark,
        command: record.command,
        family: record.family,
        ports: port_convert::registers(&record.port_driver),
    }
}

fn controls(record: &Record) -> Controls {
    Controls {
        decode: record.decode,
        global: record.global,
        limit: record.limit,
        gpio: record.gpio,
        ports: record.ports,
        test: record.test,
        types: record.types,
    }
}

/// The second double's record with a device's fields.
pub fn record(device: &Device) -> Record {
    let registers = &device.registers;
    let (controls, config, keys) = (registers.controls, registers.config, registers.keys);
    let groups = [keys.a, keys.b, keys.c, keys.d];
    Record {
        decode: controls.decode,
        global: controls.global,
        limit: controls.limit,
        gpio: controls.gpio,
        ports: controls.ports,
        test: controls.test,
        types: controls.types,
        i: config.i,
        e: config.e,
        b: config.b,
        s: config.s,
        intensities: registers.intensities,
        mask: groups.map(|group| group.mask),
        debounced: groups.map(|group| group.debounced),
        pressed: groups.map(|group| group.pressed),
        held: groups.map(|group| group.held),
        interrupt: keys.interrupt,
        p0: registers.planes.p0,
        p1: registers.planes.p1,
        pins: registers.pins,
        blink: registers.blink,
        shift: device.shift,
        fitted: device.fitted,
        answer_mark: device.answer_mark,
        command: device.command,
        family: device.family,
        port_driver: port_convert::driver(&device.ports),
    }
}

pub fn devices(records: &[Record]) -> Vec<Device> {
    records.iter().map(device).collect()
}

pub fn records(devices: &[Device]) -> Vec<Record> {
    devices.iter().map(record).collect()
}

/// Upper-case hex in whole bytes; a dash for none.
pub fn hex(bytes: &[u8]) -> String {
    if bytes.is_empty() {
        return "-".to_string();
    }
    bytes.iter().map(|byte| format!("{byte:02X}")).collect()
}

/// Upper-case hex, four digits a word.
pub fn hex_words(words: &[u16]) -> String {
    words.iter().map(|word| format!("{word:04X}")).collect()
}

/// Every field of a record by name, in hex.
fn fields(record: &Record) -> Vec<String> {
    let mut fields = Vec::new();
    let mut add = |name: &str, bytes: &[u8]| fields.push(format!("{name}={}", hex(bytes)));
    add("decode", &[record.decode]);
    add("global", &[record.global]);
    add("limit", &[record.limit]);
    add("gpio", &[record.gpio]);
    add("ports", &[record.ports]);
    add("test", &[record.test]);
    add("types", &[record.types]);
    add("i", &[record.i]);
    add("e", &[record.e]);
    add("b", &[record.b]);
    add("s", &[record.s]);
    add("intensities", &record.intensities);
    add("mask", &record.mask);
    add("debounced", &record.debounced);
    add("pressed", &record.pressed);
    add("held", &record.held);
    add("interrupt", &[record.interrupt]);
    add("p0", &record.p0);
    add("p1", &record.p1);
    add("pins", &record.pins.to_be_bytes());
    add("blink", &record.blink.to_be_bytes());
    add("shift", &record.shift.to_be_bytes());
    add("fitted", &[record.fitted]);
    add("answer_mark", &[record.answer_mark]);
    add("command", &[record.command]);
    add("family", &[record.family]);
    port_convert::fields(&record.port_driver, add);
    fields
}

/// The fields of a record that another has otherwise, each after a space.
pub fn unlike(record: &Record, other: &Record) -> String {
    let others = fields(other);
    let fields = fields(record).into_iter();
    fields
        .filter(|field| !others.contains(field))
        .map(|field| format!(" {field}"))
        .collect()
}
