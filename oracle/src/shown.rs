//! The figures as docs/FIGURES.md shows them, from what `oracle figures count` and `time` printed.
use crate::entry::{LOG_WORDS, SNAPSHOT_WORDS};
use crate::limits::{ENTRIES, KEYS, OUTGOING, PEERS, REPLIES};
use kotuseraw::image::{HEAD, ROOM};
use kotuseraw::plain::{METADATA, MOST_ASKED, NODES};
use std::fs;

/// The states of the tables: a name, the snapshot's keys, the entries.
pub const STATES: [(&str, u64, u64); 3] = [
    ("empty", 0, 0),
    ("half", KEYS / 2, ENTRIES / 2),
    ("full", KEYS, ENTRIES),
];

/// Entries that a call adds where it adds many.
pub const ADDED: u64 = 16;

/// The images of the tables.
pub const FRESH: &str = "a fresh log's";
pub const LARGEST: &str = "the largest";

/// The column of the lookup whose search passes every key.
pub const ABOVE: &str = "lookup of a last key that is nowhere, owned";

/// In the time, or the instructions, of so many lent calls the largest image is to be written, and to be read: "a few hundred".
const FEW_HUNDRED: u64 = 200;

/// Words that a call on lent words judges.
const WORDS: u64 = (LOG_WORDS + SNAPSHOT_WORDS) as u64;

/// A number, and what was measured: a table, a row of it and a column.
#[derive(Clone)]
struct Figure {
    number: u64,
    table: String,
    row: String,
    column: String,
}

fn figures(path: &str) -> Vec<Figure> {
    let text = fs::read_to_string(path).unwrap_or_else(|e| panic!("{path}: {e}"));
    let figure = |line: &str| {
        let (number, cell) = line.trim().split_once(' ')?;
        let mut names = cell.split('\t').map(str::to_string);
        Some(Figure {
            number: number.parse().ok()?,
            table: names.next()?,
            row: names.next()?,
            column: names.next()?,
        })
    };
    text.lines().filter_map(figure).collect()
}

/// 12345 as 12,345.
fn written(number: u64) -> String {
    let digits = number.to_string();
    let mut shown = String::new();
    for (i, digit) in digits.chars().enumerate() {
        if i > 0 && (digits.len() - i) % 3 == 0 {
            shown.push(',');
        }
        shown.push(digit);
    }
    shown
}

/// The names in the order in which they came first.
fn distinct<'a>(names: impl Iterator<Item = &'a String>) -> Vec<&'a String> {
    let mut seen = vec![];
    for name in names {
        if !seen.contains(&name) {
            seen.push(name);
        }
    }
    seen
}

fn number(figures: &[Figure], table: &str, row: &str, column: &str) -> Option<u64> {
    let is = |f: &&Figure| f.table == table && f.row == row && f.column == column;
    figures.iter().find(is).map(|f| f.number)
}

fn print_row(first: &str, cells: impl Iterator<Item = String>) {
    println!("| {first} | {} |", cells.collect::<Vec<_>>().join(" | "));
}

/// A table with the rows and columns of `order`, numbers from `figures`.
fn print_table(
    order: &[Figure],
    figures: &[Figure],
    table: &str,
    corner: &str,
    columns: &[&String],
) {
    print_row(corner, columns.iter().map(|c| c.to_string()));
    print_row("---", columns.iter().map(|_| "---".to_string()));
    let of_table = || order.iter().filter(|f| f.table == table);
    for row in distinct(of_table().map(|f| &f.row)) {
        let cell =
            |column: &&String| number(figures, table, row, column).map_or("–".to_string(), written);
        print_row(row, columns.iter().map(cell));
    }
    println!();
}

fn print_whole(order: &[Figure], figures: &[Figure], table: &str, corner: &str) {
    let columns = distinct(order.iter().filter(|f| f.table == table).map(|f| &f.column));
    print_table(order, figures, table, corner, &columns);
}

/// Each call on each state: lent, owned, the Rust's.
fn print_calls(order: &[Figure], figures: &[Figure]) {
    let columns: Vec<String> = ["lent", "owned", "Rust"]
        .iter()
        .flat_map(|way| STATES.map(|(state, ..)| format!("{way}, {state}")))
        .collect();
    print_table(
        order,
        figures,
        "call",
        "call",
        &columns.iter().collect::<Vec<_>>(),
    );
}

/// The times of images, and how many bytes of the largest go in a second.
fn print_images(order: &[Figure], times: &[Figure]) {
    let columns = [
        FRESH.to_string(),
        LARGEST.to_string(),
        format!("{LARGEST}, megabytes a second"),
    ];
    print_row("what is done", columns.into_iter());
    print_row("---", vec!["---".to_string(); 3].into_iter());
    let of_table = order.iter().filter(|f| f.table == "image");
    for row in distinct(of_table.map(|f| &f.row)) {
        let time = |column| number(times, "image", row, column);
        let rate = time(LARGEST).map(|took| ROOM as u64 * 1000 / took.max(1));
        let cells = [time(FRESH), time(LARGEST), rate];
        print_row(
            row,
            cells
                .into_iter()
                .map(|cell| cell.map_or("–".to_string(), written)),
        );
    }
    println!();
}

/// What a column takes on a full snapshot more than on an empty one, with no entry after it.
fn grown(figures: &[Figure], column: &str) -> u64 {
    let row = |keys: u64| format!("{keys} keys, 0 entries");
    let on = |keys| number(figures, "growth", &row(keys), column).unwrap();
    on(KEYS) - on(0)
}

/// A bar: a figure, with what it may cost at most.
fn print_bars(before: &[Figure], walked: &[Figure], now: &[Figure]) {
    let full = |figures: &[Figure], row, way| number(figures, "call", row, &format!("{way}, full"));
    let look = |figures: &[Figure], row: &str, way| {
        number(figures, "lookup", &format!("full: {row}"), way)
    };
    let scan = "Rust: entries backwards, then the map";
    let row = |name: &str, was: Option<u64>, is: Option<u64>, bar: Option<u64>, why: &str| {
        let (is, bar) = (is.unwrap(), bar.unwrap());
        let met = if is <= bar { "met" } else { "NOT MET" };
        print_row(
            name,
            [
                was.map_or("–".to_string(), written),
                written(is),
                format!("{} ({why})", written(bar)),
                met.to_string(),
            ]
            .into_iter(),
        );
    };
    print_row(
        "full state",
        ["before", "now", "at most", ""]
            .map(str::to_string)
            .into_iter(),
    );
    print_row("---", vec!["---".to_string(); 4].into_iter());
    let formed = "well_formed";
    row(
        "the form judged",
        full(before, formed, "lent"),
        full(now, formed, "lent"),
        Some(3 * WORDS),
        "3 a word",
    );
    let decide = "set_decided_idx";
    let five = full(now, decide, "Rust").map(|n| 5 * n);
    row(
        "decide, owned",
        full(before, decide, "owned"),
        full(now, decide, "owned"),
        five,
        "5 times the Rust's",
    );
    let append = "append (one entry)";
    row(
        "append, owned",
        full(before, append, "owned"),
        full(now, append, "owned"),
        full(now, append, "Rust"),
        "the Rust's",
    );
    // At one key a step the owned lookup judged the keys, too.
    let by_one = grown(before, ABOVE) - grown(before, "well_formed");
    for (step, was) in [("four keys", grown(walked, ABOVE)), ("one key", by_one)] {
        row(
            &format!("a search of {KEYS} keys; before, {step} a step"),
            Some(was),
            Some(grown(now, ABOVE)),
            Some(was / 20),
            "a twentieth",
        );
    }
    let newest = "the newest entry";
    let ten = look(now, newest, scan).map(|n| 10 * n);
    row(
        "lookup of the newest entry, owned",
        look(before, newest, "owned"),
        look(now, newest, "owned"),
        ten,
        "10 times the Rust's scan",
    );
    for at in [
        "the entry furthest back",
        "the snapshot's first alone",
        "the snapshot's last alone",
        "nowhere, below all",
        "nowhere, above all",
    ] {
        let name = format!("lookup, {at}, owned");
        row(
            &name,
            look(before, at, "owned"),
            look(now, at, "owned"),
            look(now, at, scan),
            "the Rust's scan and map",
        );
    }
    for (name, call) in [
        ("the largest image written", "write_image"),
        ("the largest image read", "read_image"),
    ] {
        let bar = full(now, append, "lent").map(|n| FEW_HUNDRED * n);
        let why = format!("{FEW_HUNDRED} lent appends");
        row(name, None, number(now, "image", call, LARGEST), bar, &why);
    }
    println!();
}

fn head() -> String {
    let [_, half, full] = STATES.map(|(_, keys, entries)| (written(keys), written(entries)));
    let room = written(ENTRIES - ADDED);
    format!(
        "# Figures

`oracle/figures` measures, and writes this file. Instructions are counted on x86-64 code below qemu-user (`oracle/count.c`), and are the
same on every machine; the turns of repeated string instructions, by which libc copies, are left out. Times are the least of 200 rounds of
one call, the clock's own 20 to 50 ns within, where the machine is x86-64.

*Walked* is what it was before the search was by halves, as `oracle/walk.counts` keeps it: the search walked the keys from the front then,
four a step.

An empty state has no key and no entry. A half one has {} keys in its snapshot and {} entries after it, a full one {} and {} ({room}
where the call adds sixteen), over half of the keys; all but the last entry are decided. *Lent* is a call on a record and words that the
caller lends, whose form is judged first; *owned* one through the crate's `Index`, which is not judged again where the boundary has an
inner call. The *Rust* is omnipaxos's `InternalStorage` over the oracle's backend, on the same state; both are compared after each is built.

A fresh log's image has {} bytes. The largest, of a full state with a stop-sign of {NODES} nodes and {METADATA} bytes, has {}. The copy beside
them is libc's of so many bytes. What a file costs beyond them is the device's.

An election's state is that of a follower: one of three nodes with two replies, and one with {PEERS} peers, {} replies and {} messages that wait.
",
        half.0,
        half.1,
        full.0,
        full.1,
        written(HEAD as u64),
        written(ROOM as u64),
        REPLIES - 1,
        OUTGOING - PEERS
    )
}

fn bars() -> String {
    format!(
        "## Bars of speed

Instructions; before: as `oracle/before.counts` keeps them, when every call judged its state, one test a place, and a search took one key a
step; four keys a step are as `oracle/walk.counts` keeps them, and are what the search by halves came after. A search is what the lookup of a
key above all takes on {KEYS} keys and no entry, less what it takes on none.
"
    )
}

fn slower() -> String {
    format!(
        "## Where we are slower, and why

- A call on lent words judges all {} of them first: that is most of what a lent call costs, and why an owned state is not judged again.
- Folding (a snapshot, `create_snapshot`, a delta, `sync_log` with one) finds each key's place in the sorted words by halves, and moves all
  that follows where the key is new; the Rust inserts into a tree.
- A lookup walks the decided entries backwards before it searches the snapshot; a `BTreeMap` of everything, which nobody has to keep beside a
  log and a snapshot, answers in a hundred or two hundred instructions.
- A lookup of many keys judges a lent state once, which is what it saves, and walks the entries for each key anew. As it is compiled that walk
  takes an instruction a turn more than the single lookup's, and no more time.
- Of an image every byte is put or looked at, and summed; a copy moves many bytes an instruction and looks at none.
- A call of the election judges its state, copies it and hands it back; the Rust's changes its own.
- An operation list runs on a copy of all words, judged before it and by its numbers after it; the oracle's backend copies everything too.
- We are faster where the Rust builds what a reader did not ask for: a read shows a part of the log where the Rust copies entries out, and
  a trim moves words where the Rust's backend copies the whole state.
",
        written(WORDS)
    )
}

/// Prints the file: the figures before the calls were made fast are kept in a file of their own, and those before the search was by halves.
pub fn run(before: &str, walked: &str, counts: &str, times: Option<&String>) {
    let (before, walked, counts) = (figures(before), figures(walked), figures(counts));
    let was = |f: &Figure| Figure {
        column: format!("{}, walked", f.column),
        ..f.clone()
    };
    let beside: Vec<Figure> = walked.iter().map(was).chain(counts.clone()).collect();
    println!("{}", head());
    println!("{}", bars());
    print_bars(&before, &walked, &counts);
    println!("## Each call: instructions\n");
    print_calls(&counts, &counts);
    println!("## Snapshots: instructions\n");
    print_whole(&beside, &beside, "snapshot", "what is done");
    println!("## Lookup: instructions\n");
    print_whole(&beside, &beside, "lookup", "the key is");
    println!("## {MOST_ASKED} keys: instructions\n");
    print_whole(&counts, &counts, "many", "the keys are");
    println!("## Images: instructions\n");
    print_whole(&counts, &counts, "image", "what is done");
    println!("## The election: instructions\n");
    print_whole(&counts, &counts, "election", "call");
    println!("## How cost grows: instructions\n");
    print_whole(&beside, &beside, "growth", "state");
    if let Some(times) = times {
        let times = figures(times);
        println!("## Each call: nanoseconds\n");
        print_calls(&counts, &times);
        println!("## Snapshots: nanoseconds\n");
        print_whole(&counts, &times, "snapshot", "what is done");
        println!("## Lookup: nanoseconds\n");
        print_whole(&counts, &times, "lookup", "the key is");
        println!("## {MOST_ASKED} keys: nanoseconds\n");
        print_whole(&counts, &times, "many", "the keys are");
        println!("## Images: nanoseconds\n");
        print_images(&counts, &times);
        println!("## The election: nanoseconds\n");
        print_whole(&counts, &times, "election", "call");
        println!("## How cost grows: nanoseconds\n");
        print_whole(&counts, &times, "growth", "state");
    }
    print!("{}", slower());
}
