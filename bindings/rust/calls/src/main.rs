//! Answers each line of standard input: docs/CALLS.md says what each does.
use calls::{text, Calls};
use std::io::{self, BufRead, BufReader, BufWriter, Write};

fn main() -> io::Result<()> {
    let mut input = BufReader::new(io::stdin().lock());
    let mut output = BufWriter::new(io::stdout().lock());
    let mut calls = Calls::default();
    let mut line = vec![];
    loop {
        // No answer is kept back while more input is awaited.
        if !input.buffer().contains(&b'\n') {
            output.flush()?;
        }
        line.clear();
        if input.read_until(b'\n', &mut line)? == 0 {
            return Ok(());
        }
        let asked = text::numbers(line.strip_suffix(b"\n").unwrap_or(&line));
        let answer = asked.and_then(|numbers| calls.answer(&numbers));
        writeln!(output, "{}", text::line(answer.as_deref()))?;
    }
}
