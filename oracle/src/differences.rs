//! The differences that docs/DIFFERENCES.md lists, each on a smallest input: what the Rust does, beside what the port does.
use crate::backend::{Change, Shared};
use crate::ballot_leader_election::Ballot;
use crate::call::{Call, Form, Kind, Part};
use crate::elections;
use crate::entry::{words, SNAPSHOT_WORDS};
use crate::runner::Runner;
use crate::state::{LentSnapshot, Sign, State};
use crate::storage::internal_storage::{InternalStorage, InternalStorageConfig};
use crate::storage::SnapshotType;
use crate::util::LogSync;
use std::ops::Bound;
use std::panic::{catch_unwind, AssertUnwindSafe};

type Rust = InternalStorage<Shared, Change>;

const ONE: Change = Change {
    key: 1,
    place: Some(10),
};

/// From a fresh log of batch size 0: the calls before, and the one in which the two differ; the same of the Rust.
struct Case {
    name: &'static str,
    calls: Vec<Call>,
    rust: fn(&mut Rust) -> String,
}

fn append(n: usize) -> Call {
    Call::Append(words(&vec![ONE; n]))
}

fn delta(idx: u64) -> Call {
    let part = Part {
        held: true,
        idx,
        kind: Kind::Delta,
        snapshot: LentSnapshot::of(&[]),
        suffix: vec![],
        stop: None,
    };
    Call::Sync(Ballot::default(), idx, part)
}

fn rust_append(s: &mut Rust, n: usize) {
    s.append_entries_with_batching(vec![ONE; n]).unwrap();
}

fn rust_stop(s: &mut Rust) {
    s.append_stopsign(Sign::of(7, &[1], None).held()).unwrap();
}

fn rust_delta(s: &mut Rust, idx: usize) -> String {
    let sync = LogSync {
        decided_snapshot: Some(SnapshotType::Delta(Default::default())),
        suffix: vec![],
        sync_idx: idx,
        stopsign: None,
    };
    s.sync_log(Ballot::default(), idx, Some(sync)).unwrap();
    format!("holds {:?}", s.get_snapshot().unwrap())
}

fn cases() -> Vec<Case> {
    let sign = Sign::of(7, &[1], None);
    let decide = |i| Call::Decide(Form::Covered, i);
    let read = |from, to| Call::Read(Form::Covered, Bound::Included(from), Bound::Excluded(to));
    vec![
        Case {
            name: "a delta sync that decides an entry that is held",
            calls: vec![append(1), delta(1)],
            rust: |s| {
                rust_append(s, 1);
                rust_delta(s, 1)
            },
        },
        Case {
            name: "a delta sync that decides past the entries that are held",
            calls: vec![append(1), decide(1), delta(2)],
            rust: |s| {
                rust_append(s, 1);
                s.set_decided_idx(1).unwrap();
                rust_delta(s, 2)
            },
        },
        Case {
            name: "a trim past a held snapshot",
            calls: vec![
                append(2),
                decide(2),
                Call::Snapshot(Some(1)),
                Call::Trim(Form::Covered, Some(2)),
            ],
            rust: |s| {
                rust_append(s, 2);
                s.set_decided_idx(2).unwrap();
                s.try_snapshot(Some(1)).unwrap();
                s.try_trim(2).unwrap();
                format!(
                    "holds {:?}, and shows {:?}",
                    s.get_snapshot().unwrap(),
                    s.read(0..2).unwrap()
                )
            },
        },
        Case {
            name: "a creation at a decided stop-sign",
            calls: vec![
                append(1),
                Call::AppendStop(sign),
                decide(2),
                Call::Create(2, SNAPSHOT_WORDS),
            ],
            rust: |s| {
                rust_append(s, 1);
                rust_stop(s);
                s.set_decided_idx(2).unwrap();
                format!("makes {:?}", s.create_snapshot(2).unwrap())
            },
        },
        Case {
            name: "a read at the stop-sign with to at or below from",
            calls: vec![append(1), Call::AppendStop(sign), read(1, 1)],
            rust: |s| {
                rust_append(s, 1);
                rust_stop(s);
                format!("shows {:?}", s.read(1..1).unwrap())
            },
        },
        Case {
            name: "a read from 2^64-1",
            calls: vec![append(1), read(u64::MAX, 1)],
            rust: |s| {
                rust_append(s, 1);
                format!("shows {:?}", s.read(usize::MAX..1).unwrap())
            },
        },
    ]
}

pub fn run() -> Result<bool, String> {
    let mut runner = Runner::start();
    for case in cases() {
        runner.set(&State::fresh(0));
        for call in &case.calls {
            runner.turn(call)?;
        }
        println!("{}", case.name);
        for call in &case.calls {
            let lines = call.lines();
            println!("  line {:?}", lines.last().unwrap());
        }
        let config = InternalStorageConfig { batch_size: 0 };
        let mut storage = Rust::with(Shared::default(), config);
        let rust = catch_unwind(AssertUnwindSafe(|| (case.rust)(&mut storage)));
        println!(
            "  the Rust {}",
            rust.unwrap_or_else(|_| "panics".to_string())
        );
        println!(
            "  the port answers {:?}, and holds {:?}",
            runner.answer,
            runner.state.snapshot()
        );
    }
    elections::differences()?;
    Ok(runner.report.listed() == cases().len() as u64)
}
