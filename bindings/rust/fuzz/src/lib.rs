//! Calls at random through the boundary, on states that calls reached, on such states with something broken, and on noise. After each it
//! is held that the call left alone what it may not touch, that a refusal is one of its own and changed nothing, and that what it
//! accepted is well formed by the library's test and by another reading of document 01. What is told of a key is what the last of its entries
//! says. An image that is written is read back, whole and with bytes changed; what is read is written again. One call in ten is an
//! election's.
//!
//! A run is the same for the same seed: a call on which the process dies is found by running it again in a debugger.
use check::Turn;
use dice::Dice;
use states::{Case, State};

mod calls;
mod check;
mod dice;
mod elections;
mod form;
mod guarded;
mod images;
mod report;
mod states;

pub use report::Report;

/// From one fresh log at most so many calls are made.
const WALK: u64 = 400;

/// Whether a walk from the state goes on: not much more happens to a log whose stop-sign is decided.
fn goes_on(state: &State, dice: &mut Dice) -> bool {
    let record = &state.record;
    let accepted = record.compacted.0 + record.retained as u64 + record.stop_held as u64;
    !(record.stop_held && record.decided.0 == accepted && dice.one_in(20))
}

/// So many calls from a seed: how often each was answered what, or the first that is wrong.
pub fn run(calls: u64, seed: u64) -> Result<Report, String> {
    let mut dice = Dice::of(seed);
    let mut report = Report::default();
    let mut turn = Turn::default();
    let mut case = Case::default();
    let mut node = elections::Walk::default();
    while report.calls() < calls {
        dice.wide = dice.one_in(3);
        let mut reached = State::fresh(dice.size());
        for _ in 0..1 + dice.below(WALK) {
            if report.calls() == calls || !goes_on(&reached, &mut dice) {
                break;
            }
            if dice.one_in(10) {
                let at = report.calls() + 1;
                let (name, number) = node.turn(&mut dice).map_err(|what| format!("call {at} from seed {seed}, {what}"))?;
                report.count(name, number);
                continue;
            }
            let sound = case.fill(&reached, &mut dice);
            let call = dice.among(calls::ALL, |call| call.weight);
            let number = turn
                .take(call, &case, &mut dice)
                .map_err(|what| format!("call {} from seed {seed}, {}: {what}\n{case:?}", report.calls() + 1, call.name))?;
            report.count(call.name, number);
            if sound && number == 0 {
                turn.leave(&mut reached);
            }
        }
    }
    Ok(report)
}
