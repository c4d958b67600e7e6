//! Images: the bytes that document 02 asks for, what is refused of them and where, and the files that hold them.
use kotuseraw::image::{CHANGE, HEAD, ROOM, STOP};
use kotuseraw::plain::{self, LARGEST_BATCH, METADATA, NODES};
use kotuseraw::{BlockPlace, Compaction, Entry, Index, LoadError, LogIndex, Refusal, StopSign, Upto, View, LOG_WORDS, SNAPSHOT_WORDS};
use std::path::PathBuf;
use std::{env, fs, io, process};

fn bytes(hex: &str) -> Vec<u8> {
    (0..hex.len()).step_by(2).map(|at| u8::from_str_radix(&hex[at..at + 2], 16).unwrap()).collect()
}

/// The log at the end of document 01's replay example.
fn example() -> Index {
    let mut index = Index::fresh(2).unwrap();
    for entry in [Entry::put(9, BlockPlace(100)), Entry::put(4, BlockPlace(200)), Entry::removed(9)] {
        index.append(entry).unwrap();
    }
    index.flush_batch().unwrap();
    index.set_decided_idx(LogIndex(2)).unwrap();
    index.compact(Compaction::Snapshot, Upto::All).unwrap();
    index.append_stopsign(StopSign::new(7, &[1], None).unwrap()).unwrap();
    index.set_decided_idx(LogIndex(4)).unwrap();
    index.compact(Compaction::Snapshot, Upto::Index(LogIndex(4))).unwrap();
    index
}

/// As many keys, entries, nodes and bytes of metadata as there can be.
fn largest() -> Index {
    let mut index = Index::fresh(0).unwrap();
    let run = |from, to| (from..to).map(|key| Entry::put(key, BlockPlace(key))).collect::<Vec<_>>();
    index.append_entries_with_batching(&run(0, 512)).unwrap();
    index.set_decided_idx(LogIndex(512)).unwrap();
    index.compact(Compaction::Snapshot, Upto::All).unwrap();
    index.append_entries_with_batching(&run(512, 1536)).unwrap();
    index.append_stopsign(StopSign::new(u32::MAX, &[u64::MAX; NODES], Some(&[255; METADATA])).unwrap()).unwrap();
    index
}

/// The number and what it carries.
fn refused(image: &[u8]) -> (u64, u64) {
    let refusal = Index::from_image(image, 0).unwrap_err();
    (refusal.number(), refusal.carried())
}

/// A header with its decided index changed and its sum made right.
fn with_decided(image: &[u8], decided: u8) -> Vec<u8> {
    let mut image = image.to_vec();
    image[12] = decided;
    let sum: u64 = image[..HEAD - 2].iter().map(|byte| u64::from(*byte)).sum();
    image[HEAD - 2..HEAD].copy_from_slice(&(sum as u16).to_be_bytes());
    image
}

#[test]
fn a_fresh_log_is_a_header() {
    let mut due = bytes("c748000100");
    due.extend([0; 56]);
    due.extend(bytes("0110"));
    assert_eq!(Index::fresh(LARGEST_BATCH).unwrap().to_image(), due);
    assert_eq!(Index::from_image(&due, 3).unwrap(), Index::fresh(3).unwrap());
}

#[test]
fn the_replay_example_is_these_bytes() {
    let image = example().to_image();
    let header = ["c748", "0001", "03", "00000003", "00000004", "00000004", "0000", "0002"].concat();
    let mut due = bytes(&header);
    due.extend([0; 40]);
    due.extend(bytes("0120"));
    due.extend(bytes("c74b000000000000000400000000000000c801de"));
    due.extend(bytes("c74b0000000000000009ffffffffffffffff0913"));
    due.extend(bytes("c75300000007010000000000000001000123"));
    assert_eq!(image, due);
    assert_eq!(image.len(), 121);
    assert_eq!(Index::from_image(&image, 2).unwrap(), example());
    assert_eq!(Index::from_image(&with_decided(&image, 3), 2).unwrap().record().decided, LogIndex(3));
}

#[test]
fn the_offset_is_that_of_the_first_bad_record() {
    let image = example().to_image();
    assert_eq!(refused(&image[..102]), (15, 83));
    assert_eq!(refused(&[&image[..], &[0]].concat()), (15, 121));
    assert_eq!(refused(&with_decided(&image, 2)), (15, 0));
    assert_eq!(refused(&with_decided(&image, 5)), (15, 0));
    let starts = [0, HEAD, HEAD + CHANGE, HEAD + 2 * CHANGE];
    for cut in 0..image.len() {
        let start = starts.into_iter().rfind(|start| *start <= cut).unwrap();
        assert_eq!(refused(&image[..cut]), (15, start as u64), "the first {cut} bytes");
    }
    for at in 0..image.len() {
        for flip in 1..=255 {
            let mut image = image.clone();
            image[at] ^= flip;
            let start = starts.into_iter().rfind(|start| *start <= at).unwrap() as u64;
            // The format is judged before the header's sum.
            let due = if at == 2 || at == 3 { (14, 0) } else { (15, start) };
            assert_eq!(refused(&image), due, "byte {at} by {flip}");
        }
    }
    for batch_size in [LARGEST_BATCH + 1, u64::MAX] {
        assert_eq!(Index::from_image(&image[1..], batch_size).unwrap_err().number(), 11);
    }
}

#[test]
fn the_largest_image_fills_the_room() {
    let index = largest();
    let image = index.to_image();
    assert_eq!(image.len(), ROOM);
    assert_eq!(ROOM, 30_881);
    assert_eq!(ROOM - (HEAD + 1536 * CHANGE), STOP + NODES * 8 + METADATA);
    assert_eq!(Index::from_image(&image, 0).unwrap(), index);
    assert_eq!(refused(&[&image[..], &[0]].concat()), (15, ROOM as u64));
    assert_eq!(refused(&image[..ROOM - 1]), (15, (ROOM - STOP - NODES * 8 - METADATA) as u64));
}

#[test]
fn a_refused_call_changes_nothing_that_is_lent() {
    let index = example();
    let image = index.to_image();
    let (log, snapshot) = (index.log().to_vec(), index.snapshot_words().to_vec());
    for room in [0, 1, HEAD, image.len() - 1] {
        let mut out = vec![7; room];
        let said = plain::write_image(*index.record(), &log, &snapshot, &mut out);
        assert_eq!((said.number, said.carried), (13, 0));
        assert_eq!(out, vec![7; room]);
    }
    let mut out = vec![7; image.len() + 9];
    let said = plain::write_image(*index.record(), &log, &snapshot, &mut out);
    assert_eq!((said.number, said.told, said.first), (0, 1, image.len() as u64));
    assert_eq!(out, [&image[..], &[7; 9]].concat());

    let mut broken = *index.record();
    broken.decided.0 = 9;
    let before = broken;
    let (mut words, mut keys) = (vec![5; LOG_WORDS], vec![5; SNAPSHOT_WORDS]);
    let mut view = View { record: &mut broken, log: &mut words, snapshot: &mut keys };
    assert_eq!(view.to_image().unwrap_err().number(), 12);
    assert_eq!(view.read_image(&image[..120], 2).unwrap_err().carried(), 103);
    assert_eq!((&*view.record, &*view.log, &*view.snapshot), (&before, &[5; LOG_WORDS][..], &[5; SNAPSHOT_WORDS][..]));
    assert_eq!(view.read_image(&image, 2).unwrap(), LogIndex(4));
    assert_eq!((&*view.record, &*view.log, &*view.snapshot), (index.record(), index.log(), index.snapshot_words()));
    assert_eq!(view.to_image().unwrap(), image);
    let (mut short, mut record) = (vec![5; LOG_WORDS - 1], before);
    let refused = View { record: &mut record, log: &mut short, snapshot: &mut keys }.read_image(&image, 2);
    assert_eq!(refused.unwrap_err().number(), 11);
}

/// A folder of a test's own, gone when the test is over.
struct Folder(PathBuf);

impl Folder {
    fn of(test: &str) -> Folder {
        let folder = env::temp_dir().join(format!("kotuseraw-{test}-{}", process::id()));
        fs::create_dir(&folder).unwrap();
        Folder(folder)
    }

    fn names(&self) -> Vec<String> {
        let mut names: Vec<_> = fs::read_dir(&self.0).unwrap().map(|file| file.unwrap().file_name().into_string().unwrap()).collect();
        names.sort();
        names
    }
}

impl Drop for Folder {
    fn drop(&mut self) {
        let _ = fs::remove_dir_all(&self.0);
    }
}

fn refusal(loaded: Result<Index, LoadError>) -> Refusal {
    match loaded {
        Err(LoadError::Refused(refusal)) => refusal,
        other => panic!("{other:?}"),
    }
}

fn kind(loaded: Result<Index, LoadError>) -> io::ErrorKind {
    match loaded {
        Err(LoadError::Io(why)) => why.kind(),
        other => panic!("{other:?}"),
    }
}

#[test]
fn a_file_holds_the_index_that_was_saved_last() {
    let folder = Folder::of("saved");
    let path = folder.0.join("index");
    assert_eq!(kind(Index::load(&path, 0)), io::ErrorKind::NotFound);
    for index in [largest(), example(), Index::fresh(2).unwrap()] {
        index.save(&path).unwrap();
        assert_eq!(fs::read(&path).unwrap(), index.to_image());
        assert_eq!(Index::load(&path, index.record().batch_size).unwrap(), index);
        assert_eq!(folder.names(), ["index"]);
    }
    assert_eq!(refusal(Index::load(&path, LARGEST_BATCH + 1)).number(), 11);
}

#[test]
fn what_another_save_left_behind_is_left_alone() {
    let folder = Folder::of("behind");
    let path = folder.0.join("index");
    fs::write(folder.0.join("index.new0"), "half").unwrap();
    example().save(&path).unwrap();
    assert_eq!(folder.names(), ["index", "index.new0"]);
    assert_eq!(fs::read(folder.0.join("index.new0")).unwrap(), b"half");
    assert_eq!(Index::load(&path, 2).unwrap(), example());
}

#[test]
fn a_save_that_fails_leaves_nothing_behind() {
    let folder = Folder::of("failed");
    let path = folder.0.join("index");
    fs::create_dir(&path).unwrap();
    assert!(example().save(&path).is_err());
    assert_eq!(folder.names(), ["index"]);
    assert!(matches!(Index::load(&path, 0), Err(LoadError::Io(_))));
    assert_eq!(example().save(folder.0.join("nowhere").join("index")).unwrap_err().kind(), io::ErrorKind::NotFound);
    assert_eq!(example().save("..").unwrap_err().kind(), io::ErrorKind::InvalidInput);
}

#[test]
fn a_file_that_is_no_image_is_refused() {
    let folder = Folder::of("refused");
    let path = folder.0.join("index");
    let image = example().to_image();
    let room = largest().to_image();
    let damaged = |at: u64| format!("refused 15: the image is damaged, ill-formed or has bytes left over (offset: {at})");
    let cases = [
        (vec![], 15, 0, damaged(0)),
        (bytes("c7480002"), 14, 0, "refused 14: the image is of an unknown format".to_string()),
        (image[..102].to_vec(), 15, 83, damaged(83)),
        ([&room[..], &[0]].concat(), 15, ROOM as u64, damaged(ROOM as u64)),
        ([&room[..], &[9; 5000]].concat(), 15, ROOM as u64, damaged(ROOM as u64)),
    ];
    for (held, number, carried, said) in cases {
        fs::write(&path, &held).unwrap();
        let refusal = refusal(Index::load(&path, 0));
        assert_eq!((refusal.number(), refusal.carried(), refusal.to_string()), (number, carried, said));
    }
    // A file without an end is answered too.
    assert_eq!(refusal(Index::load("/dev/zero", 0)).number(), 15);
}
