//! The Rust as the judge of the port.
//!
//!     oracle replay SCRIPT ANSWERS [SCRIPT ANSWERS ..]
//!     oracle calls STEPS EVERY N SEED
//!     oracle stored STEPS EVERY N SEED
//!     oracle elections WHOLE N SEED
//!     oracle differences
//!     oracle record FOLDER
//!     oracle figures count | time | show BEFORE COUNTS [TIMES]
// The judged files hold more than is asked of them.
#![allow(dead_code)]
mod backend;
mod call;
mod dice;
mod differences;
mod edges;
mod elections;
mod entry;
mod figures;
mod history;
mod judge;
mod limits;
mod lines;
mod port;
mod random;
mod record;
mod replay;
mod rules;
mod runner;
mod sample;
mod shims;
mod shown;
mod small;
mod state;
mod store;
pub use shims::*;
include!(concat!(env!("OUT_DIR"), "/judged.rs"));
use runner::Runner;

/// Small scopes up to so many steps, one boundary state in so many, and so many calls at random.
fn calls(mut runner: Runner, numbers: &[String]) -> Result<bool, String> {
    let number = |at: usize| numbers[at].parse::<u64>().expect("a number");
    small::run(&mut runner, number(0))?;
    edges::run(&mut runner, number(1) as usize)?;
    random::run(&mut runner, number(2), number(3))?;
    Ok(runner.report.print())
}

fn main() {
    // A panic of the Rust is a difference that is told, not a trace.
    std::panic::set_hook(Box::new(|_| ()));
    let words: Vec<String> = std::env::args().skip(1).collect();
    let found = match words.first().map(String::as_str) {
        Some("replay") => Ok(replay::run(&words[1..])),
        Some("calls") if words.len() == 5 => calls(Runner::start(), &words[1..]),
        Some("stored") if words.len() == 5 => calls(Runner::start_stored(), &words[1..]),
        Some("elections") if words.len() == 4 => {
            let number = |at: usize| words[at].parse::<u64>().expect("a number");
            elections::run(number(1) == 1, number(2), number(3))
        }
        Some("figures") => figures::run(&words[1..]),
        Some("differences") => differences::run(),
        Some("record") if words.len() == 2 => record::run(&words[1]),
        _ => Err(
            "usage: oracle replay | calls | stored | elections | differences | record | figures, as src/main.rs says".to_string(),
        ),
    };
    let same = found.unwrap_or_else(|what| {
        println!("A DIFFERENCE\n{what}");
        false
    });
    std::process::exit(!same as i32);
}
