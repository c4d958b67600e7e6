//! The program `calls` on lines whose answers are known.
use std::io::Write;
use std::process::{Command, Stdio};
use std::{env, fs, path::Path, thread};

fn file(name: &str) -> Vec<u8> {
    fs::read(Path::new(env!("CARGO_MANIFEST_DIR")).join("tests").join(name)).unwrap()
}

/// What the program answers to its input.
fn answers(input: &[u8]) -> Vec<u8> {
    let mut program = Command::new(env!("CARGO_BIN_EXE_calls")).stdin(Stdio::piped()).stdout(Stdio::piped()).spawn().unwrap();
    let mut to = program.stdin.take().unwrap();
    let input = input.to_vec();
    let asking = thread::spawn(move || to.write_all(&input).unwrap());
    let output = program.wait_with_output().unwrap();
    asking.join().unwrap();
    assert!(output.status.success());
    output.stdout
}

fn lines(text: &[u8]) -> Vec<&[u8]> {
    text.strip_suffix(b"\n").unwrap_or(text).split(|byte| *byte == b'\n').collect()
}

/// The answers that the Rust of omnipaxos judged when they were recorded.
#[test]
fn recorded_answers() {
    let (asked, answered) = (file("recorded.in"), file("recorded.out"));
    let given = answers(&asked);
    for (at, ((line, due), is)) in lines(&asked).into_iter().zip(lines(&answered)).zip(lines(&given)).enumerate() {
        let line = String::from_utf8_lossy(line);
        assert_eq!(String::from_utf8_lossy(due), String::from_utf8_lossy(is), "line {}: {line}", at + 1);
    }
    assert_eq!(answered, given);
}

/// Every line is a bad line, and what the program holds afterwards is what it holds at the start.
#[test]
fn bad_lines_change_nothing() {
    let show = b"0\n1 0\n1 1\n1 2\n1 3\n1 4\n".to_vec();
    let bad = file("bad.in");
    let count = bad.iter().filter(|byte| **byte == b'\n').count();
    let due = ["bad line\n".repeat(count).into_bytes(), answers(&show)].concat();
    assert_eq!(due, answers(&[bad, show].concat()));
}

/// A line that is not UTF-8 is a bad line, the last line needs no line end, and no line begins after the last line end.
#[test]
fn ends_and_bytes() {
    assert_eq!(answers(b""), b"");
    assert_eq!(answers(b"\n"), b"bad line\n");
    assert_eq!(answers(b"12"), b"1 1\n");
    assert_eq!(answers(b"\xff\n12 \xc3\x28\n12\n"), b"bad line\nbad line\n1 1\n");
}
