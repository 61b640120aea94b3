//! The planner of the proved library, asked as the second double's is.

use crate::convert;
use crate::guards::guarded;
use ratchetelm::{Device, Refusal, MOST_ACCESSES};
use second_double::{Checked, Planned, Record};

#[repr(C)]
struct Plan {
    number: u8,
    accesses: usize,
}

#[repr(C)]
struct PlanCheck {
    number: u8,
    accepted: u8,
}

extern "C" {
    fn max6954_plan(
        chain: *const Device,
        n: usize,
        wanted: *const u8,
        wanted_length: usize,
        list: *mut u16,
        room: usize,
    ) -> Plan;
    fn max6954_plan_check(
        chain: *const Device,
        n: usize,
        wanted: *const u8,
        wanted_length: usize,
        list: *const u16,
        list_length: usize,
    ) -> PlanCheck;
}

/// The safe call's answer; where refused, with the accesses that the exported one gives.
pub fn plan(chain: &[Device], wanted: &[u8], room: &mut [u16]) -> Planned {
    match ratchetelm::plan(chain, wanted, room) {
        Ok(accesses) => Planned {
            number: 0,
            accesses,
        },
        Err(refusal) => Planned {
            number: refusal.number(),
            ..exported_plan(chain, wanted, room)
        },
    }
}

fn exported_plan(chain: &[Device], wanted: &[u8], list: &mut [u16]) -> Planned {
    let room = list.len();
    // SAFETY: each pointer has the length of its slice, and the one that is written is borrowed exclusively.
    let Plan { number, accesses } = unsafe {
        max6954_plan(
            chain.as_ptr(),
            chain.len(),
            wanted.as_ptr(),
            wanted.len(),
            list.as_mut_ptr(),
            room,
        )
    };
    Planned { number, accesses }
}

/// The safe check's answer; where refused, with what the exported one says of the list.
fn check(chain: &[Device], wanted: &[u8], list: &[u16]) -> Checked {
    match ratchetelm::plan_check(chain, wanted, list) {
        Ok(accepted) => Checked {
            number: 0,
            accepted: u8::from(accepted),
        },
        Err(refusal) => Checked {
            number: refusal.number(),
            ..exported_check(chain, wanted, list)
        },
    }
}

fn exported_check(chain: &[Device], wanted: &[u8], list: &[u16]) -> Checked {
    // SAFETY: each pointer has the length of its slice, and nothing is written.
    let PlanCheck { number, accepted } = unsafe {
        max6954_plan_check(
            chain.as_ptr(),
            chain.len(),
            wanted.as_ptr(),
            wanted.len(),
            list.as_ptr(),
            list.len(),
        )
    };
    Checked { number, accepted }
}

/// What the library's check says of a list, and the second double's.
pub fn verdicts(row: &[Record], wanted: &[u8], list: &[u16]) -> [Checked; 2] {
    let ours = check(&convert::devices(row), wanted, list);
    [ours, second_double::check(row, wanted, list)]
}

/// The library's list, in room that always does.
pub fn list(row: &[Record], wanted: &[u8]) -> Vec<u16> {
    let mut list = vec![0; MOST_ACCESSES * row.len()];
    let planned = plan(&convert::devices(row), wanted, &mut list);
    list.truncate(planned.accesses * row.len());
    list
}

/// The number and the room after asking for the bytes of an access, of the library and of the second double.
pub fn bytes(n: usize, list: &[u16], access: usize, room: &[u8]) -> [(u8, Vec<u8>); 2] {
    let lend = |lent: &mut [u8]| ratchetelm::plan_bytes(n, list, access, lent);
    let (result, ours) = guarded(0xA5, room, lend);
    let number = result.err().map_or(0, Refusal::number);
    let mut second = room.to_vec();
    let second_number = second_double::plan_bytes(n, list, access, &mut second);
    [(number, ours), (second_number, second)]
}
