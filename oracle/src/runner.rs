//! The port and the Rust side by side: each call is asked of the port; its refusal is held to document 01's rules, and where it is
//! not refused its reply and the whole state after it are held to the Rust's.
use crate::backend::Shared;
use crate::call::Call;
use crate::entry::reply_at;
use crate::history::History;
use crate::judge::{known, Judge, Told, Verdict};
use crate::port::Port;
use crate::rules;
use crate::sample::Sample;
use crate::state::State;
use crate::store::Stored;
use std::collections::BTreeMap;
use std::mem;

#[derive(Default)]
pub struct Report {
    /// call, then refusal number (0: accepted)
    counts: BTreeMap<&'static str, BTreeMap<u64, u64>>,
    listed: BTreeMap<&'static str, u64>,
    same: u64,
    ours: u64,
    /// Lookups that say unknown, at a hole, of a key that the history has.
    lost: u64,
}

impl Report {
    pub fn asked(&self) -> u64 {
        self.counts.values().flat_map(|row| row.values()).sum()
    }

    /// How many calls were answered otherwise than by the Rust, as is listed.
    pub fn listed(&self) -> u64 {
        self.listed.values().sum()
    }

    /// What no call of this run met: an exported call that was never accepted, or a refusal that it never gave.
    fn missing(&self) -> Vec<String> {
        let met =
            |name: &str, n: &u64| self.counts.get(name).is_some_and(|row| row.contains_key(n));
        Call::all()
            .into_iter()
            .flat_map(|(name, refusals)| {
                [vec![0], refusals]
                    .concat()
                    .into_iter()
                    .map(move |n| (name, n))
            })
            .filter(|(name, n)| !met(name, n))
            .map(|(name, n)| format!("{name} {}", cell(n)))
            .collect()
    }

    /// Prints the table. Whether everything was met.
    pub fn print(&self) -> bool {
        println!("call × refusal × how often (`-` is accepted)");
        for (name, row) in &self.counts {
            let cells: Vec<String> = row
                .iter()
                .map(|(n, times)| format!("{}:{times}", cell(*n)))
                .collect();
            println!("  {name:46} {}", cells.join("  "));
        }
        for (name, times) in &self.listed {
            println!("  not as the Rust, listed: {name}: {times}");
        }
        let asked = self.asked();
        let refused: u64 = asked
            - self
                .counts
                .values()
                .filter_map(|row| row.get(&0))
                .sum::<u64>();
        println!(
            "{asked} calls: {} as the Rust, {} of calls that it has not, {refused} refused as document 01 says",
            self.same, self.ours
        );
        println!(
            "lookups at a hole that say unknown of a key that the history has: {}",
            self.lost
        );
        let missing = self.missing();
        for cell in &missing {
            println!("NOT MET: {cell}");
        }
        missing.is_empty()
    }
}

fn cell(refusal: u64) -> String {
    match refusal {
        0 => "-".to_string(),
        n => n.to_string(),
    }
}

pub struct Runner {
    pub port: Port,
    pub report: Report,
    /// What is kept of the calls, where some are.
    pub sample: Option<Sample>,
    pub state: State,
    /// What the last call was answered.
    pub answer: Vec<u64>,
    output: Vec<u64>,
    /// The Rust in the same state, where that is well formed.
    judge: Judge<Shared>,
    /// The Rust over the proved library in place of our backend, where it is asked too.
    stored: Option<Judge<Stored>>,
    /// The log's history, where the state is well formed.
    history: History,
    /// The state that was set last, and the calls since.
    from: State,
    path: Vec<Call>,
}

impl Runner {
    pub fn start() -> Self {
        let fresh = State::fresh(0);
        Runner {
            port: Port::start(),
            report: Report::default(),
            sample: None,
            answer: vec![],
            output: vec![],
            judge: Judge::of(&fresh),
            stored: None,
            history: History::of(&fresh),
            from: fresh.clone(),
            state: fresh,
            path: vec![],
        }
    }

    /// One that asks the Rust over the proved library too.
    pub fn start_stored() -> Self {
        let mut runner = Runner::start();
        runner.stored = Some(Judge::of(&runner.state));
        runner
    }

    /// Brings both into a state.
    pub fn set(&mut self, state: &State) {
        let lines = state.lines_from(&self.state);
        self.port.ask(&lines).expect("lines that set");
        let shown = self.port.state();
        assert_eq!(shown, *state, "a state that is set is shown");
        self.stand(shown);
    }

    /// Changes the port's state by lines that set.
    pub fn poke(&mut self, line: Vec<u64>) {
        self.port.ask(&[line]).expect("a line that sets");
        let state = self.port.state();
        self.stand(state);
    }

    fn stand(&mut self, state: State) {
        if state.well_formed() {
            self.judge = Judge::of(&state);
            self.history = History::of(&state);
            if let Some(stored) = &mut self.stored {
                *stored = Judge::of(&state);
            }
        }
        self.from = state.clone();
        self.state = state;
        self.path.clear();
    }

    /// The answer, the state and the output after it.
    fn ask(&mut self, call: &Call) -> Option<(Vec<u64>, State, Vec<u64>)> {
        let answer = self.port.ask(&call.lines())?;
        let after = self.port.state();
        let output = match call.writes() {
            true => self.port.output(),
            false => self.output.clone(),
        };
        Some((answer, after, output))
    }

    /// One call. Whether the port accepts it, or the difference found, with the calls that led there.
    pub fn turn(&mut self, call: &Call) -> Result<bool, String> {
        self.path.push(call.clone());
        let Some((answer, after, output)) = self.ask(call) else {
            return Err(self.difference("a bad line"));
        };
        let due = rules::refusal(&self.state, call);
        let refused = match answer[..] {
            [0, number, carried] => Some((number, carried)),
            _ => None,
        };
        *self
            .report
            .counts
            .entry(call.name())
            .or_default()
            .entry(refused.map_or(0, |(number, _)| number))
            .or_default() += 1;
        if refused != due {
            return Err(self.difference(&format!(
                "document 01 says {due:?}, the port answers {answer:?}"
            )));
        }
        if let Some(sample) = &mut self.sample {
            sample.offer(&self.state, call, &answer);
        }
        if refused.is_some() {
            if after != self.state || output != self.output {
                return Err(self.difference("a refused call changed a word"));
            }
            return Ok(false);
        }
        let out_before = mem::take(&mut self.output);
        let told = Told {
            answer: &answer,
            out: &output,
            out_before: &out_before,
            after: &after,
        };
        if let Some(stored) = &mut self.stored {
            if let Verdict::Differs(what) = stored.judge(call, &self.state, &told) {
                return Err(self.difference(&format!("over the library, {what}")));
            }
        }
        match self.judge.judge(call, &self.state, &told) {
            Verdict::Same => self.report.same += 1,
            Verdict::Ours => self.report.ours += 1,
            Verdict::Listed(name) => *self.report.listed.entry(name).or_default() += 1,
            Verdict::Differs(what) => return Err(self.difference(&what)),
        }
        match self.remember(call, &told) {
            Ok(lost) => self.report.lost += lost,
            Err(what) => return Err(self.difference(&what)),
        }
        self.output = output;
        self.state = after;
        self.answer = answer;
        Ok(true)
    }

    /// The history beside an accepted call; one on a state that is not well formed says nothing of it. How many keys of it a lookup
    /// says unknown of.
    fn remember(&mut self, call: &Call, told: &Told) -> Result<u64, String> {
        let judge = |key: u64, answer: &[u64]| self.history.judge(key, &self.state, answer);
        match call {
            Call::Lookup(key) => return judge(*key, told.answer).map(u64::from),
            Call::LookupMany(keys, out) => {
                let mut replies = told.out.to_vec();
                replies.resize(*out, 0);
                let lost = (0..)
                    .zip(keys)
                    .map(|(i, key)| judge(*key, &known(reply_at(&replies, i))).map(u64::from));
                return lost.sum();
            }
            _ => (),
        }
        if told.after.well_formed() {
            self.history.go_on(call, &self.state, told.after);
        }
        Ok(0)
    }

    fn difference(&self, what: &str) -> String {
        let mut lines = vec![what.to_string(), format!("from {:?}", self.from)];
        lines.extend(self.path.iter().map(|call| format!("  {call:?}")));
        for line in &mut lines {
            if line.len() > 500 {
                line.truncate(500);
                line.push_str(" ..");
            }
        }
        lines.push(format!("after {} calls of this run", self.report.asked()));
        lines.join("\n")
    }
}
