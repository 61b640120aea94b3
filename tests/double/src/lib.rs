//! A second double of a chain of MAX6954 and MAX6957 LED drivers and of a bus of MAX6955, written bit by bit for comparison.
#![forbid(unsafe_code)]

mod bits;
mod blink;
mod brightness;
mod bus;
mod calls;
mod check;
mod families;
mod keys;
mod lit_time;
mod lone;
mod lone_bus;
mod look_back;
mod numbers;
mod picture;
mod plan_bytes;
mod planner;
mod port_driver;
mod port_levels;
mod port_registers;
mod port_states;
mod ports;
mod record;
mod registers;
mod script;
mod search;
mod segments;
mod transition;
mod wire;

pub use bus::{bus_call, Bus, BusCall, BusReply, Straps};
pub use calls::{access, call, named_driver, Call, Reply};
pub use check::{check, Checked};
pub use lit_time::{by_clock, by_quarter, clocks_given, lit_time, report, Given, LitTime};
pub use lone::Lone;
pub use lone_bus::{LonePart, Step};
pub use picture::Picture;
pub use plan_bytes::plan_bytes;
pub use planner::{plan, Planned};
pub use port_driver::PortDriver;
pub use record::Record;
pub use script::{run, Script};
pub use search::{fewest_words, least_accesses};
