// Names the Rust that is judged: the files of OMNIPAXOS_SRC, or of ../../shared/docs/src from this folder. They are compiled where they
// stand, unchanged. The election has a module of ours below it, which so may see its fields.
use std::{env, fs, path::PathBuf};

fn main() {
    println!("cargo:rerun-if-env-changed=OMNIPAXOS_SRC");
    let here = PathBuf::from(env::var("CARGO_MANIFEST_DIR").unwrap());
    let src = env::var("OMNIPAXOS_SRC")
        .map(PathBuf::from)
        .unwrap_or_else(|_| here.join("../../shared/docs/src"));
    let src = src
        .canonicalize()
        .unwrap_or_else(|e| panic!("{}: {e}; set OMNIPAXOS_SRC", src.display()));
    println!("cargo:rerun-if-changed={}", src.display());
    let text = format!(
        "pub mod ballot_leader_election {{\ninclude!({:?});\n#[path = {:?}]\npub mod opened;\n}}\n#[path = {:?}]\npub mod storage;\n",
        src.join("ballot_leader_election.rs"),
        here.join("src/opened.rs"),
        src.join("storage/mod.rs"),
    );
    fs::write(
        PathBuf::from(env::var("OUT_DIR").unwrap()).join("judged.rs"),
        text,
    )
    .unwrap();
}
