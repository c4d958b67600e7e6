//! Answers as docs/CALLS.md writes them, each function for the calls that tell the same sort of thing.
use kotuseraw::plain::{IndexRecord, Reply, Said, ShownSaid};

/// A refusal, or else the reply.
fn answer(said: Said, reply: &[u64]) -> Vec<u64> {
    match said.number {
        0 => reply.to_vec(),
        number => vec![0, number, said.carried],
    }
}

/// Keeps the record that a call hands back.
pub fn kept(record: &mut IndexRecord, reply: Reply) -> Said {
    *record = reply.index;
    reply.said
}

pub fn flag(is: bool) -> Vec<u64> {
    vec![1, is as u64]
}

pub fn settled(said: Said) -> Vec<u64> {
    answer(said, &[1])
}

/// An index, a flag or a number of keys.
pub fn number(said: Said) -> Vec<u64> {
    answer(said, &[1, said.first])
}

/// A part of the log.
pub fn span(said: Said) -> Vec<u64> {
    answer(said, &[1, said.first, said.second])
}

/// A number, or none.
pub fn maybe_number(said: Said) -> Vec<u64> {
    match said.told {
        0 => answer(said, &[1]),
        _ => answer(said, &[2, said.first]),
    }
}

/// What is known of a key.
pub fn word(said: Said) -> Vec<u64> {
    match said.told {
        0 => answer(said, &[1]),
        1 => answer(said, &[2, said.first]),
        _ => answer(said, &[3]),
    }
}

/// What was flushed, or that it is held.
pub fn maybe_flushed(said: Said) -> Vec<u64> {
    match said.told {
        0 => answer(said, &[1]),
        _ => answer(said, &[2, said.first, said.second]),
    }
}

pub fn diff(said: Said) -> Vec<u64> {
    match said.told {
        1 => answer(said, &[1, said.second]),
        kind => answer(said, &[kind, said.first, said.second]),
    }
}

pub fn shown(said: ShownSaid) -> Vec<u64> {
    match (said.number, said.told) {
        (0, 0) => vec![1],
        (0, _) => vec![
            2,
            said.marker,
            said.index,
            said.keys as u64,
            said.first as u64,
            said.count as u64,
            said.decided as u64,
            said.stop as u64,
            said.stop_decided as u64,
        ],
        (number, _) => vec![0, number, said.carried],
    }
}

/// Words as an area is shown: without the zeros at their end, and their count before them.
pub fn area(words: &[u64]) -> Vec<u64> {
    let used = words.iter().rposition(|w| *w != 0).map_or(0, |last| last + 1);
    let mut shown = vec![used as u64];
    shown.extend(&words[..used]);
    shown
}
