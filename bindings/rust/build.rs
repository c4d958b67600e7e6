//! Finds the archive of the proved library, or makes it with the Rattle kit, and says what is missing where it can do neither.
use std::path::{Path, PathBuf};
use std::process::{exit, Command};
use std::time::SystemTime;
use std::{env, fs};

fn give_up(what: &str) -> ! {
    eprintln!("kotuseraw: {what}");
    exit(1);
}

/// What stands in a folder; nothing where it is none.
fn within(at: &Path) -> Vec<PathBuf> {
    fs::read_dir(at).map(|all| all.flatten().map(|one| one.path()).collect()).unwrap_or_default()
}

/// The folders of what the library is made of.
fn sources(root: &Path) -> Vec<PathBuf> {
    let parts = |one: PathBuf| ["src", "specs", "proofs"].map(|part| one.join(part));
    within(&root.join("crates")).into_iter().flat_map(parts).filter(|part| part.is_dir()).collect()
}

/// When the newest file below a folder was written.
fn newest(at: &Path) -> SystemTime {
    let written = |p: &Path| fs::metadata(p).and_then(|m| m.modified()).unwrap_or(SystemTime::UNIX_EPOCH);
    within(at).iter().map(|one| newest(one)).max().unwrap_or_else(|| written(at))
}

/// The archive below the repository, made anew where a source is younger.
fn made(root: &Path) -> PathBuf {
    let host = root.join("crates/host");
    let archive = host.join("out/libhost.a");
    let sources = sources(root);
    for at in sources.iter().chain([&archive]) {
        println!("cargo:rerun-if-changed={}", at.display());
    }
    let young = archive.is_file() && sources.iter().all(|at| newest(at) <= newest(&archive));
    if young {
        return archive;
    }
    match Command::new("rt").arg("lib").current_dir(&host).output() {
        Ok(ran) if ran.status.success() && archive.is_file() => archive,
        Ok(ran) => give_up(&format!(
            "`rt lib` failed in {}:\n{}{}",
            host.display(),
            String::from_utf8_lossy(&ran.stdout),
            String::from_utf8_lossy(&ran.stderr)
        )),
        Err(_) => give_up(
            "missing: the archive of the proved library. Put the Rattle kit's `rt` into PATH, which makes it (`rt lib` in crates/host, some \
             minutes the first time), or set KOTUSERAW_ARCHIVE to the path of one that was made elsewhere.",
        ),
    }
}

fn main() {
    println!("cargo:rerun-if-env-changed=KOTUSERAW_ARCHIVE");
    println!("cargo:rerun-if-changed=build.rs");
    let target = env::var("CARGO_CFG_TARGET_ARCH").unwrap();
    if target != "x86_64" {
        give_up(&format!(
            "the archive is x86-64 code, and this builds for {target}. ./test in the repository's bindings/ builds and runs for x86-64 on \
             such a machine."
        ));
    }
    let archive = match env::var_os("KOTUSERAW_ARCHIVE") {
        Some(path) => {
            println!("cargo:rerun-if-changed={}", Path::new(&path).display());
            PathBuf::from(path)
        }
        None => made(&Path::new(&env::var("CARGO_MANIFEST_DIR").unwrap()).join("../..")),
    };
    let out = PathBuf::from(env::var("OUT_DIR").unwrap());
    let linked = out.join("libkotuseraw_host.a");
    if let Err(why) = fs::copy(&archive, &linked) {
        give_up(&format!("{} cannot be read: {why}", archive.display()));
    }
    println!("cargo:rustc-env=KOTUSERAW_LINKED={}", linked.display());
    println!("cargo:rustc-link-search=native={}", out.display());
    println!("cargo:rustc-link-lib=static=kotuseraw_host");
}
