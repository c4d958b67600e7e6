//! `fuzz [CALLS [SEED]]`: so many calls at random through the boundary (ten million), from a seed (the clock's).
use std::time::{SystemTime, UNIX_EPOCH};
use std::{env, process::exit};

/// A run as long as this is to meet every cell of its table.
const WHOLE: u64 = 10_000_000;

fn clock() -> u64 {
    SystemTime::now().duration_since(UNIX_EPOCH).map_or(0, |since| since.as_nanos() as u64)
}

fn main() {
    let words: Vec<String> = env::args().skip(1).collect();
    let number = |at: usize| words.get(at).map(|word| word.parse::<u64>().expect("fuzz [CALLS [SEED]]"));
    let calls = number(0).unwrap_or(WHOLE);
    let seed = number(1).unwrap_or_else(clock);
    println!("{calls} calls from seed {seed}");
    let report = fuzz::run(calls, seed).unwrap_or_else(|what| {
        println!("WRONG\n{what}");
        exit(1);
    });
    print!("{report}");
    let missing = report.missing();
    for cell in &missing {
        println!("NOT MET: {cell}");
    }
    exit((calls >= WHOLE && !missing.is_empty()) as i32);
}
