//! Answers each line of standard input, which is bytes in hexadecimal digits: what they are as an image. `tests/images` asks it of very many,
//! in one process.
use kotuseraw::{entry, Ballot, Entry, Index, Refusal, StopSign};
use std::io::{self, BufRead, BufWriter, Write};

fn bytes(line: &str) -> Option<Vec<u8>> {
    let digits: Option<Vec<u8>> = line.chars().map(|c| c.to_digit(16).map(|digit| digit as u8)).collect();
    let digits = digits.filter(|digits| digits.len() % 2 == 0)?;
    Some(digits.chunks(2).map(|pair| pair[0] << 4 | pair[1]).collect())
}

fn numbers(name: &str, of: impl IntoIterator<Item = u64>) -> String {
    of.into_iter().fold(name.to_string(), |line, number| format!("{line} {number}"))
}

fn ballot(name: &str, of: &Ballot) -> String {
    numbers(name, [of.config_id.into(), of.n.into(), of.priority.into(), of.pid])
}

fn changes(name: &str, of: Option<&[Entry]>) -> String {
    of.map_or(format!("{name} none"), |run| numbers(name, entry::words(run).iter().copied()))
}

fn stop(of: Option<&StopSign>) -> String {
    let Some(sign) = of else {
        return "stop none".to_string();
    };
    let metadata = sign.metadata().map_or("metadata none".to_string(), |bytes| numbers("metadata", bytes.iter().copied().map(u64::from)));
    format!("{} {metadata}", numbers("stop", [sign.config_id.into()].into_iter().chain(sign.nodes().iter().copied())))
}

/// All that an index holds.
fn shown(index: &Index) -> Result<String, Refusal> {
    let record = index.record();
    Ok([
        numbers("compacted", [record.compacted.0]),
        numbers("decided", [record.decided.0]),
        numbers("accepted", [index.get_accepted_idx()?.0]),
        ballot("promise", &record.promise),
        ballot("round", &record.accepted_round),
        changes("snapshot", index.snapshot()),
        changes("entries", Some(index.get_suffix(record.compacted)?)),
        stop(Some(&record.stop).filter(|_| record.stop_held)),
    ]
    .join(" "))
}

fn answer(bytes: &[u8]) -> Result<String, Refusal> {
    let index = Index::from_image(bytes, 0)?;
    let again = if index.to_image() == bytes { "" } else { ", whose image is another" };
    Ok(format!("sound{again} {}", shown(&index)?))
}

fn main() -> io::Result<()> {
    let mut out = BufWriter::new(io::stdout().lock());
    for line in io::stdin().lock().lines() {
        let said = match bytes(&line?) {
            None => "bad line".to_string(),
            Some(bytes) => answer(&bytes).unwrap_or_else(|refusal| match refusal.number() {
                15 => format!("refused 15 at {}", refusal.carried()),
                number => format!("refused {number}"),
            }),
        };
        writeln!(out, "{said}")?;
    }
    out.flush()
}
