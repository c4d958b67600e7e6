//! A fixed list of calls with the oracle's answers: the lines that ask them, `recorded.in`, and those that answer, `recorded.out`. Each
//! answer in it is judged before it is written.
use crate::runner::Runner;
use crate::sample::Sample;
use crate::{edges, random, small};
use std::fs;
use std::path::Path;

fn gather() -> Result<Sample, String> {
    let mut runner = Runner::start();
    runner.sample = Some(Sample::default());
    small::run(&mut runner, 2)?;
    edges::run(&mut runner, 19)?;
    random::run(&mut runner, 50_000, 1)?;
    Ok(runner.sample.take().unwrap())
}

fn written(sample: &Sample, folder: &Path) -> Result<bool, String> {
    let mut runner = Runner::start();
    runner.port.record = Some(Default::default());
    for (state, call) in sample.kept.values().flatten() {
        runner.set(state);
        runner.turn(call)?;
    }
    let (asked, answered) = runner.port.record.take().unwrap();
    let write = |name, text| fs::write(folder.join(name), text).map_err(|e| e.to_string());
    write("recorded.in", asked)?;
    write("recorded.out", answered)?;
    Ok(runner.report.print())
}

pub fn run(folder: &str) -> Result<bool, String> {
    written(&gather()?, Path::new(folder))
}
