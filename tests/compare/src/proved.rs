//! The calls of the proved library, asked as the second double's are.

use crate::exported;
use crate::guards::guarded;
use ratchetelm::{Device, Plane, PortState, Refusal};
use second_double::{Call, Reply};

/// Serves or refuses one call.
pub fn call(chain: &mut [Device], call: &Call) -> Reply {
    match call {
        Call::Access { clocks, sent, room } => access(chain, *clocks, sent, room),
        Call::Scan { driver, keys } => done(ratchetelm::scan(chain, *driver, *keys)),
        Call::Pins { driver, levels } => done(ratchetelm::set_pins(chain, *driver, *levels)),
        Call::Clocks { driver, clocks } => done(ratchetelm::add_clocks(chain, *driver, *clocks)),
        _ => question(chain, call),
    }
}

fn question(chain: &[Device], call: &Call) -> Reply {
    match call {
        Call::Plane {
            driver,
            p0,
            p1,
            first,
            last,
        } => reply(ratchetelm::plane(chain, *driver, p0, p1, *first, *last).map(<[u8]>::to_vec)),
        Call::Segments {
            driver,
            cathode,
            font14,
            font16,
        } => agreed(
            ratchetelm::segments(chain, *driver, *cathode, font14, font16)
                .map(|pins| pins.map(|pin| pin as u8).to_vec()),
            exported::segments(chain, *driver, *cathode, font14, font16),
        ),
        Call::Brightness { driver, digit } => agreed(
            ratchetelm::brightness(chain, *driver, *digit)
                .map(|answer| vec![answer.sixteenths, answer.ruler as u8]),
            exported::brightness(chain, *driver, *digit),
        ),
        Call::LookBack {
            driver,
            plane,
            digit,
            words,
        } => look_back(chain, *driver, *plane, *digit, words),
        _ => of_driver(chain, call),
    }
}

/// A question with a driver alone.
fn of_driver(chain: &[Device], call: &Call) -> Reply {
    match call {
        Call::Shown { driver } => agreed(
            ratchetelm::shown(chain, *driver).map(|plane| vec![plane as u8]),
            exported::shown(chain, *driver),
        ),
        Call::Interrupt { driver } => agreed(
            ratchetelm::interrupt(chain, *driver).map(|raised| vec![u8::from(raised)]),
            exported::interrupt(chain, *driver),
        ),
        Call::AnswerMark { driver } => agreed(
            ratchetelm::answer_mark(chain, *driver).map(|mark| vec![u8::from(mark)]),
            exported::answer_mark(chain, *driver),
        ),
        Call::Ports { driver } => agreed(
            ratchetelm::ports(chain, *driver).map(|ports| ports.map(port_number).to_vec()),
            exported::ports(chain, *driver),
        ),
        _ => unreachable!("the other calls change the chain"),
    }
}

/// What a port drives, as C has it.
fn port_number(state: PortState) -> u8 {
    match state {
        PortState::Undriven => 0,
        PortState::Low => 1,
        PortState::High => 2,
        PortState::Led(sixteenths) => 2 + sixteenths,
    }
}

/// The safe call has no plane above 1, so that such a one is asked for as C does.
fn look_back(chain: &[Device], driver: usize, plane: usize, digit: usize, words: &[u16]) -> Reply {
    let exported = exported::look_back(chain, driver, plane, digit, words);
    match [Plane::P0, Plane::P1].get(plane) {
        Some(named) => agreed(
            ratchetelm::look_back(chain, driver, *named, digit, words).map(|byte| vec![byte]),
            exported,
        ),
        None => exported,
    }
}

/// Of a call for a part: its number alone, and its number with the plane that the part is of.
pub fn part(chain: &[Device], call: &Call) -> Option<(u8, Reply)> {
    let Call::Plane {
        driver,
        p0,
        p1,
        first,
        last,
    } = call
    else {
        return None;
    };
    let planes = [&p0[..], &p1[..]];
    Some((
        exported::plane_number(chain, *driver, planes, *first, *last),
        exported::plane_shown(chain, *driver, planes, *first, *last),
    ))
}

/// The room after an access.
fn access(chain: &mut [Device], clocks: usize, sent: &[u8], room: &[u8]) -> Reply {
    let lend = |lent: &mut [u8]| ratchetelm::access(chain, clocks, sent, lent);
    let (result, back) = guarded(0xA5, room, lend);
    Reply {
        back,
        ..done(result)
    }
}

/// A call that gives nothing back.
fn done(result: Result<(), Refusal>) -> Reply {
    reply(result.map(|()| Vec::new()))
}

/// The safe answer; where refused, with what the exported question gives back.
fn agreed(safe: Result<Vec<u8>, Refusal>, exported: Reply) -> Reply {
    match safe {
        Err(refusal) if refusal.number() == exported.number => exported,
        _ => reply(safe),
    }
}

fn reply(result: Result<Vec<u8>, Refusal>) -> Reply {
    match result {
        Ok(back) => Reply { number: 0, back },
        Err(refusal) => Reply {
            number: refusal.number(),
            back: Vec::new(),
        },
    }
}
