//! The proved library in this process, asked by the lines of docs/CALLS.md.
use crate::state::{used, Sign, State};
use calls::{text, Calls};

pub struct Port {
    calls: Calls,
    /// What was asked and answered, where that is kept.
    pub record: Option<(String, String)>,
}

impl Port {
    pub fn start() -> Self {
        Port {
            calls: Calls::default(),
            record: None,
        }
    }

    /// Whether a line belongs in a record: not where it sets what is set already, and no call changes it.
    fn tells(&self, line: &[u64]) -> bool {
        match line {
            [2, area @ (2 | 3), at, words @ ..] => {
                self.calls.area(*area as usize)[*at as usize..][..words.len()] != *words
            }
            [3, area, n] => self.calls.lent()[*area as usize] as u64 != *n,
            [5, field, v] => Sign::of_plain(self.calls.sign()).fields()[*field as usize] != *v,
            _ => true,
        }
    }

    fn answer(&mut self, line: &[u64]) -> Option<Vec<u64>> {
        let tells = self.record.is_some() && self.tells(line);
        let answer = self.calls.answer(line);
        if let Some((asked, answered)) = self.record.as_mut().filter(|_| tells) {
            asked.push_str(&text::line(Some(line)));
            asked.push('\n');
            answered.push_str(&text::line(answer.as_deref()));
            answered.push('\n');
        }
        answer
    }

    /// The answer to the last of the lines. None where one is a bad line.
    pub fn ask(&mut self, lines: &[Vec<u64>]) -> Option<Vec<u64>> {
        let mut last = vec![];
        for line in lines {
            last = self.answer(line)?;
        }
        Some(last)
    }

    /// The state that it is in; a record has the line that shows it.
    pub fn state(&mut self) -> State {
        if self.record.is_some() {
            self.answer(&[0]);
        }
        let held = &self.calls;
        State::of(held.record(), held.area(0), held.area(1), held.lent())
    }

    /// The words of the output area without the zeros at their end; a record has the line that shows them.
    pub fn output(&mut self) -> Vec<u64> {
        if self.record.is_some() {
            self.answer(&[1, 4]);
        }
        used(self.calls.area(4)).to_vec()
    }
}
