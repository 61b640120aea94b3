//! What served calls met of the MAX6957, counted so that a run which never met some of it fails.

use crate::port_records::waits;
use crate::records::PORTS;
use crate::report::Part;
use second_double::{named_driver, Call, PortDriver, Record, Reply};
use std::collections::BTreeMap;

/// What happens to transition detection, and to P31 as INT against its stored bit. Unless it says so, no event was waiting.
const HAPPENS: [&str; 14] = [
    "raised by a port write",
    "raised by a pairs write",
    "raised by a mask write",
    "raised by pins",
    "waiting at a word",
    "waiting at a mask read",
    "pins that raise nothing",
    "cleared by a mask read",
    "cleared by a mask write",
    "mask read without an event",
    "cleared by a snapshot",
    "ended by M 0",
    "P31 high by INT",
    "P31 low by INT",
];

/// Configuration and mask written, and the mask read.
const CONFIGURATION: u8 = 0x04;
const MASK: u8 = 0x06;
const MASK_READ: u8 = 0x86;

/// What a port drives as an output, low or high.
const LOW: u8 = 1;
const HIGH: u8 = 2;

/// Words written and read by address, the ports' states, and what happened.
pub struct PortMet {
    words: [[usize; 128]; 2],
    states: [usize; 19],
    happened: BTreeMap<&'static str, usize>,
}

impl PortMet {
    pub fn new() -> PortMet {
        PortMet {
            words: [[0; 128]; 2],
            states: [0; 19],
            happened: BTreeMap::new(),
        }
    }

    /// A call and the reply to it, by what one of the drivers was before and is after.
    pub fn count(
        &mut self,
        driver: usize,
        call: &Call,
        reply: &Reply,
        before: &PortDriver,
        after: &Record,
    ) {
        if after.family != PORTS || reply.number != 0 {
            return;
        }
        let named = named_driver(call) == Some(driver);
        match call {
            Call::Access { .. } => self.word(before, after),
            Call::Pins { .. } if named => self.pins(before, &after.port_driver),
            Call::Ports { .. } if named => self.ports(&after.port_driver, &reply.back),
            _ => {}
        }
    }

    /// A word taken: the shift word still has its address, and the data of a write.
    fn word(&mut self, before: &PortDriver, after: &Record) {
        let [high, low] = after.shift.to_be_bytes();
        self.words[usize::from(high / 128)][usize::from(high % 128)] += 1;
        let after = &after.port_driver;
        if before.interrupt < after.interrupt {
            return self.raised(before, high);
        }
        let cleared = before.interrupt > after.interrupt;
        let quiet = before.interrupt == 0 && after.detecting == 1;
        let ended = before.detecting > after.detecting;
        let without_m = high == CONFIGURATION && low < 128;
        self.add("cleared by a mask read", cleared && high == MASK_READ);
        self.add("cleared by a mask write", cleared && high == MASK);
        self.add("mask read without an event", quiet && high == MASK_READ);
        self.add("cleared by a snapshot", cleared && high == CONFIGURATION);
        self.add("ended by M 0", ended && without_m);
    }

    /// An event at a word.
    fn raised(&mut self, before: &PortDriver, high: u8) {
        match (waits(before), high) {
            (true, _) => {
                self.add("waiting at a word", true);
                self.add("waiting at a mask read", high == MASK_READ);
            }
            (_, MASK) => self.add("raised by a mask write", true),
            (_, 0x09..=0x0F) => self.add("raised by a pairs write", true),
            _ => self.add("raised by a port write", true),
        }
    }

    /// Pin levels given.
    fn pins(&mut self, before: &PortDriver, after: &PortDriver) {
        let raised = before.interrupt < after.interrupt && !waits(before);
        let quiet = after.detecting == 1 && before.pins != after.pins;
        self.add("raised by pins", raised);
        self.add("pins that raise nothing", quiet);
    }

    /// The states of P4 to P31.
    fn ports(&mut self, driver: &PortDriver, states: &[u8]) {
        for state in states {
            self.states[usize::from(*state)] += 1;
        }
        let (stored, p31) = (driver.stored >> 27, states[27]);
        self.add("P31 high by INT", p31 == HIGH && stored == 0);
        self.add("P31 low by INT", p31 == LOW && stored == 1);
    }

    fn add(&mut self, what: &'static str, happened: bool) {
        if happened {
            *self.happened.entry(what).or_default() += 1;
        }
    }

    /// Counts whether all was met often enough; how often.
    pub fn judged(&self, part: &mut Part, check: usize, often: usize) -> String {
        let happened = |what: &'static str| (what, self.happened.get(what).copied().unwrap_or(0));
        let happened = part.met_each(check, &HAPPENS.map(happened), often);
        let mut states = Vec::new();
        for (state, times) in self.states.into_iter().enumerate() {
            part.met(check, &format!("port state {state}"), times, often);
            states.push(format!("{state} {times}"));
        }
        let words = ["written", "read"].map(|way| self.ways(part, check, often, way));
        format!(
            "MAX6957: {}; port states {}; {happened}",
            words.join(", "),
            states.join(", ")
        )
    }

    /// Every address was written or read often enough; how often the seldomest was.
    fn ways(&self, part: &mut Part, check: usize, often: usize, way: &str) -> String {
        let counts = self.words[usize::from(way == "read")];
        for (address, times) in counts.into_iter().enumerate() {
            part.met(check, &format!("{address:02X} {way}"), times, often);
        }
        let (all, least) = (counts.iter().sum::<usize>(), counts.iter().min());
        format!(
            "{all} words {way}, each address {} times",
            least.unwrap_or(&0)
        )
    }
}
