//! Calls at random.
use crate::dice::Dice;
use crate::runner::Runner;

/// At most so many calls from one state, and now and then something set in between.
fn walk(runner: &mut Runner, dice: &mut Dice, calls: u64) -> Result<(), String> {
    let wide = dice.one_in(4);
    runner.set(&dice.state(wide));
    for _ in 0..calls {
        // Not much more happens to a log whose stop-sign is decided.
        if runner.state.stop_decided() && dice.one_in(20) {
            break;
        }
        if dice.one_in(80) {
            spoil(runner, dice, wide)?;
        }
        let call = dice.call(&runner.state, wide);
        runner.turn(&call)?;
    }
    Ok(())
}

/// Sets something at random: a state that is no longer well formed answers a few calls, and is set back.
fn spoil(runner: &mut Runner, dice: &mut Dice, wide: bool) -> Result<(), String> {
    let sound = runner.state.clone();
    runner.poke(dice.spoil(&sound));
    if runner.state.well_formed() {
        return Ok(());
    }
    for _ in 0..4 {
        let call = dice.call(&sound, wide);
        runner.turn(&call)?;
    }
    runner.set(&sound);
    Ok(())
}

pub fn run(runner: &mut Runner, calls: u64, seed: u64) -> Result<(), String> {
    let mut dice = Dice::of(seed);
    let before = runner.report.asked();
    while runner.report.asked() < before + calls {
        let length = 1 + dice.below(400);
        walk(runner, &mut dice, length)?;
    }
    Ok(())
}
