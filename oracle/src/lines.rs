//! The lines of docs/CALLS.md that put words into an area.

/// Words that one line puts: it has room for a few more numbers.
const WORDS: usize = 60;

/// The lines that put words into an area from one on.
pub fn put(area: u64, from: usize, words: &[u64]) -> Vec<Vec<u64>> {
    (from..)
        .step_by(WORDS)
        .zip(words.chunks(WORDS))
        .map(|(at, part)| [&[2, area, at as u64], part].concat())
        .collect()
}

/// The lines that put words at an area's start and lend so many of it.
pub fn lend(area: u64, words: &[u64]) -> Vec<Vec<u64>> {
    let mut lines = put(area, 0, words);
    lines.push(vec![3, area, words.len() as u64]);
    lines
}
