//! The C header beside the crate: the same structs to the byte, the same functions; and a C program that links the archive.
use kotuseraw::image::ROOM;
use kotuseraw::plain::*;
use kotuseraw::{LOG_WORDS, SNAPSHOT_WORDS};
use std::collections::BTreeSet;
use std::path::{Path, PathBuf};
use std::process::Command;
use std::{env, fs, mem};

/// A struct's name in C, its fields, and what C is to print of it: its size, then each field's offset.
struct Layout {
    name: &'static str,
    fields: Vec<&'static str>,
    numbers: Vec<usize>,
}

macro_rules! layouts {
    ($($t:ty, $name:literal: $($field:tt = $c:literal),*;)*) => {
        vec![$(Layout {
            name: $name,
            fields: vec![$($c),*],
            numbers: vec![mem::size_of::<$t>(), $(mem::offset_of!($t, $field)),*],
        }),*]
    };
}

fn layouts() -> Vec<Layout> {
    layouts! {
        LogIndex, "kotuseraw_index": 0 = "value";
        BlockPlace, "kotuseraw_place": 0 = "value";
        Ballot, "kotuseraw_ballot": config_id = "config_id", n = "n", priority = "priority", pid = "pid";
        StopSign, "kotuseraw_stopsign": config_id = "config_id", node_count = "node_count", nodes = "nodes",
            metadata_held = "metadata_held", metadata_len = "metadata_len", metadata = "metadata";
        IndexRecord, "kotuseraw_record": batch_size = "batch_size", retained = "retained", batched = "batched", compacted = "compacted",
            decided = "decided", promise = "promise", accepted_round = "accepted_round", snapshot_held = "snapshot_held", keys = "keys",
            stop_held = "stop_held", stop = "stop";
        Said, "kotuseraw_said": number = "number", carried = "carried", told = "told", first = "first", second = "second";
        Reply, "kotuseraw_reply": said = "said", index = "index";
        ShownSaid, "kotuseraw_shown": number = "number", carried = "carried", told = "told", marker = "marker", index = "index",
            keys = "keys", first = "first", count = "count", decided = "decided", stop = "stop", stop_decided = "stop_decided";
        Bound, "kotuseraw_bound": kind = "kind", index = "index";
        Op, "kotuseraw_op": kind = "kind", index = "index", ballot = "ballot", given = "given";
        Ops, "kotuseraw_ops": count = "count", ops = "ops";
        Lent, "kotuseraw_lent": snapshot_lent = "snapshot_lent", keys = "keys", stop_lent = "stop_lent", stop = "stop";
        LogSync, "kotuseraw_sync": sync_idx = "sync_idx", kind = "kind", keys = "keys", stop_held = "stop_held", stopsign = "stopsign";
        HeartbeatReply, "kotuseraw_heartbeat_reply": round = "round", ballot = "ballot", leader = "leader", happy = "happy";
        BLEMessage, "kotuseraw_message": from = "from", to = "to", is_reply = "is_reply", reply = "reply";
        Peers, "kotuseraw_peers": count = "count", held = "held";
        Replies, "kotuseraw_replies": count = "count", held = "held";
        Outgoing, "kotuseraw_outgoing": count = "count", held = "held";
        BallotLeaderElection, "kotuseraw_election": configuration_id = "configuration_id", pid = "pid", peers = "peers",
            hb_round = "hb_round", heartbeat_replies = "heartbeat_replies", prev_replies = "prev_replies",
            current_ballot = "current_ballot", leader = "leader", happy = "happy", outgoing = "outgoing";
        BLEConfig, "kotuseraw_election_config": configuration_id = "configuration_id", pid = "pid", priority = "priority";
        ElectionReply, "kotuseraw_election_reply": said = "said", election = "election";
        ElectionTaken, "kotuseraw_election_taken": said = "said", outgoing = "outgoing", election = "election";
        ElectionBallot, "kotuseraw_election_ballot": said = "said", ballot = "ballot";
        ElectionBallots, "kotuseraw_election_ballots": said = "said", replies = "replies";
    }
}

fn folder() -> PathBuf {
    Path::new(env!("CARGO_MANIFEST_DIR")).join("../c")
}

/// A command of words, with more of them after it.
fn command(words: &str, more: &[&Path]) -> Command {
    let mut all = words.split_whitespace().map(Path::new).chain(more.iter().copied());
    let mut command = Command::new(all.next().unwrap());
    command.args(all);
    command
}

/// What a C program prints: CC compiles it, and on a machine that is not x86-64 KOTUSERAW_RUNNER runs it.
fn printed(name: &str, source: &Path, more: &[&Path]) -> String {
    let program = Path::new(env!("CARGO_TARGET_TMPDIR")).join(name);
    let cc = env::var("CC").unwrap_or("cc".to_string());
    let flags = format!("{cc} -std=c11 -Wall -Wextra -Werror -I");
    let built =
        command(&flags, &[&folder(), source]).args(more).arg("-o").arg(&program).output().expect("a C compiler, cc or what CC says");
    assert!(built.status.success(), "{}", String::from_utf8_lossy(&built.stderr));
    let runner = env::var("KOTUSERAW_RUNNER").unwrap_or_default();
    let ran = command(&runner, &[&program]).output().unwrap();
    assert!(ran.status.success());
    String::from_utf8(ran.stdout).unwrap()
}

#[test]
fn the_structs_are_the_same_to_the_byte() {
    let mut source = "#include \"kotuseraw.h\"\n#include <stdio.h>\nint main(void) {\n".to_string();
    let mut due = String::new();
    for layout in layouts() {
        let mut shown = vec![format!("sizeof({})", layout.name)];
        shown.extend(layout.fields.iter().map(|f| format!("offsetof({}, {f})", layout.name)));
        for (c, number) in shown.iter().zip(&layout.numbers) {
            source += &format!("printf(\"{c} %zu\\n\", {c});\n");
            due += &format!("{c} {number}\n");
        }
    }
    source += "printf(\"%d %d %d\\n\", KOTUSERAW_LOG_WORDS, KOTUSERAW_SNAPSHOT_WORDS, KOTUSERAW_IMAGE_ROOM);\n";
    due += &format!("{LOG_WORDS} {SNAPSHOT_WORDS} {ROOM}\n");
    source += "printf(\"%d %d\\n\", KOTUSERAW_MOST_ASKED, KOTUSERAW_REPLY_WIDTH);\n";
    due += &format!("{MOST_ASKED} {REPLY_WIDTH}\n");
    source += "printf(\"%d %d %d\\n\", KOTUSERAW_PEERS, KOTUSERAW_REPLIES, KOTUSERAW_OUTGOING);\n";
    due += &format!("{PEERS} {REPLIES} {OUTGOING}\n");
    source += "printf(\"%d %d\\n\", KOTUSERAW_TRIM, KOTUSERAW_SNAPSHOT);\n";
    due += "0 1\n";
    source += "printf(\"%d %d %d\\n\", KOTUSERAW_FOUND_UNKNOWN, KOTUSERAW_FOUND_PLACE, KOTUSERAW_FOUND_REMOVED);\nreturn 0;\n}\n";
    due += "0 1 2\n";
    let file = Path::new(env!("CARGO_TARGET_TMPDIR")).join("layout.c");
    fs::write(&file, source).unwrap();
    assert_eq!(printed("layout", &file, &[]), due);
}

/// The names of functions in a text.
fn functions(text: &str, after: char) -> BTreeSet<String> {
    let is_name = |c: char| c.is_ascii_lowercase() || c == '_';
    text.match_indices("kotuseraw_")
        .map(|(at, _)| text[at..].split(|c| !is_name(c)).next().unwrap())
        .filter(|name| text.contains(&format!("{name}{after}")))
        .map(str::to_string)
        .collect()
}

#[test]
fn the_functions_are_the_same() {
    let header = fs::read_to_string(folder().join("kotuseraw.h")).unwrap();
    let rust = fs::read_to_string(Path::new(env!("CARGO_MANIFEST_DIR")).join("src/plain.rs")).unwrap();
    let declared = functions(&header, '(');
    assert_eq!(declared, functions(&rust, '"'));
    assert_eq!(declared.len(), 54);
}

#[test]
fn a_c_program_links_the_archive() {
    let source = folder().join("example.c");
    let archive = Path::new(env!("KOTUSERAW_LINKED"));
    assert_eq!(
        printed("example", &source, &[archive]),
        "refused 0, place 80\n9 is told 0, 7 is told 1\nrefused 5, carrying 2\nan image of 103 bytes, accepted 2\n\
         in round 2, told 1, node 5 leads\n"
    );
}
