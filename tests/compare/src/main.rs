//! Runs the comparison. COMPARE_SEED is another seed, COMPARE_TIMES a longer run, COMPARE_PANEL and COMPARE_REPORT another
//! panel or report program.

use compare::{
    bus_calls, bus_lists, calls, least, lists, lit_reports, lit_times, look_backs, plan_bytes,
    plan_checks, plans, scripts, sent,
};
use std::env;
use std::process::ExitCode;

fn main() -> ExitCode {
    let seed = setting("COMPARE_SEED", 6954);
    let times = setting("COMPARE_TIMES", 1) as usize;
    println!("seed {seed}");
    let (mut passed, mut failed) = (0, 0);
    let parts = [
        scripts::compare,
        calls::compare,
        lists::compare,
        plans::compare,
        plan_checks::compare,
        least::compare,
        sent::compare,
        plan_bytes::compare,
        look_backs::compare,
        bus_calls::compare,
        bus_lists::compare,
        lit_times::compare,
        lit_reports::compare,
    ];
    for compare in parts {
        let part = compare(seed, times);
        let holding = part.checks.iter().filter(|check| check.holds()).count();
        passed += holding;
        failed += part.checks.len() - holding;
    }
    println!("{passed} passed, {failed} failed");
    ExitCode::from(u8::from(failed > 0))
}

/// A number from the environment.
fn setting(name: &str, usual: u64) -> u64 {
    let given = env::var(name).map(|text| text.parse());
    match given {
        Ok(Ok(number)) => number,
        Ok(Err(_)) => panic!("{name} isn't a number"),
        Err(_) => usual,
    }
}
