//! Images: written from any state, read from any bytes. What is due is said once more here, from document 02's text.
use crate::calls::{reply, said};
use crate::check::{hold, Answer, Turn};
use crate::dice::Dice;
use crate::form;
use crate::guarded::Guarded;
use crate::states::{Case, State};
use kotuseraw::entry::{ENTRIES, KEYS, WIDTH};
use kotuseraw::image::{CHANGE, HEAD, ROOM, STOP};
use kotuseraw::plain::{self, IndexRecord, Said, LARGEST_BATCH, METADATA, NODES};
use kotuseraw::{LOG_WORDS, SNAPSHOT_WORDS};

/// Of an image up to this long every byte is changed, of a longer one some.
const SMALL: usize = 300;

/// Where the stop-sign's record of a well-formed state starts, and where the image ends.
fn ends(record: &IndexRecord) -> (usize, usize) {
    let stop = HEAD + CHANGE * (record.keys.min(KEYS) + record.retained.min(ENTRIES));
    let sign = STOP + 8 * record.stop.node_count.min(NODES) + record.stop.metadata_len.min(METADATA);
    (stop, stop + if record.stop_held { sign } else { 0 })
}

/// Where the record starts in which a byte of an image stands.
fn start(record: &IndexRecord, at: usize) -> usize {
    let (stop, _) = ends(record);
    match at {
        _ if at < HEAD => 0,
        _ if at < stop => at - (at - HEAD) % CHANGE,
        _ => stop,
    }
}

/// A state without its batch.
fn reloaded(state: &State, batch_size: u64) -> State {
    let mut left = state.clone();
    left.record.batched = 0;
    left.record.batch_size = batch_size;
    left.log[WIDTH * state.record.retained..].fill(0);
    left
}

/// Reads bytes into words that hold something else.
fn read_anew(batch_size: u64, bytes: &[u8]) -> (Said, State) {
    let mut state = State { record: IndexRecord::default(), log: vec![3; LOG_WORDS], snapshot: vec![4; SNAPSHOT_WORDS] };
    let made = plain::read_image(batch_size, bytes, &mut state.log, &mut state.snapshot);
    state.record = made.index;
    (made.said, state)
}

/// A byte of an image changed: it is refused, at the start of the record in which the byte stands.
fn spoilt(record: &IndexRecord, image: &mut [u8], at: usize, dice: &mut Dice) -> Result<(), String> {
    let flip = 1 + dice.below(255) as u8;
    image[at] ^= flip;
    let (of, state) = read_anew(0, image);
    image[at] ^= flip;
    let due = if at == 2 || at == 3 { (14, 0) } else { (15, start(record, at) as u64) };
    hold((of.number, of.carried) == due, format_args!("byte {at} of an image changed by {flip}: it says {of:?}, due is {due:?}"))?;
    let same = state.log == [3; LOG_WORDS] && state.snapshot == [4; SNAPSHOT_WORDS] && state.record == IndexRecord::default();
    hold(same, format_args!("byte {at} of an image changed by {flip}: refused, it changed something"))
}

/// The image of a state is read back as the state without its batch, and no byte of it can be another.
fn read_back(case: &Case, image: &mut [u8], dice: &mut Dice) -> Result<(), String> {
    let record = &case.state.record;
    let batch_size = dice.below(LARGEST_BATCH + 1);
    let (of, state) = read_anew(batch_size, image);
    hold(of.number == 0, format_args!("an image that was written is refused: {of:?}"))?;
    hold(state == reloaded(&case.state, batch_size), "an image is read back as another state")?;
    let all = image.len() <= SMALL && dice.one_in(20);
    for at in 0..if all { image.len() } else { 3 } {
        let at = if all { at } else { dice.below(image.len() as u64) as usize };
        spoilt(record, image, at, dice)?;
    }
    Ok(())
}

pub fn write(turn: &mut Turn, case: &Case, dice: &mut Dice) -> Result<Answer, String> {
    let (_, due) = ends(&case.state.record);
    let room = match dice.below(3) {
        0 => dice.pick(&[0, HEAD - 1, HEAD, due - 1, due, due + 1]),
        _ => dice.pick(&[ROOM, ROOM + 1]),
    };
    let before: Vec<u8> = (0..room).map(|at| at as u8 ^ 0x5a).collect();
    let mut out = Guarded::default();
    out.load(&before);
    let made = plain::write_image(turn.record, turn.log.words(), turn.snapshot.words(), out.bytes_mut());
    hold(out.stands(), "a byte beside the output changed")?;
    let wrote = if made.number == 0 { due } else { 0 };
    hold(out.bytes().get(wrote..) == Some(&before[wrote..]), format_args!("it changed more than {wrote} bytes"))?;
    hold((made.number == 13) == (form::well_formed(&case.state) && room < due), format_args!("{room} bytes of {due}: it says {made:?}"))?;
    if made.number == 0 {
        hold((made.told, made.first) == (1, due as u64), format_args!("{due} bytes are due: it says {made:?}"))?;
        read_back(case, &mut out.bytes_mut()[..due], dice)?;
    }
    said(made)
}

/// The image of a state, or a fresh log's where it is not well formed, and its record.
fn image(case: &Case) -> (Vec<u8>, IndexRecord) {
    let fresh = State::fresh(0);
    let state = if form::well_formed(&case.state) { &case.state } else { &fresh };
    let mut bytes = vec![0; ROOM];
    let made = plain::write_image(state.record, &state.log, &state.snapshot, &mut bytes);
    bytes.truncate(made.first as usize);
    (bytes, state.record)
}

/// Makes the sum of the record that starts at a byte right, where the whole record stands there.
fn seal(record: &IndexRecord, bytes: &mut [u8], from: usize) {
    let (stop, end) = ends(record);
    let to = match from {
        0 => HEAD,
        _ if from < stop => from + CHANGE,
        _ => end,
    };
    if let Some(whole) = bytes.get_mut(from..to) {
        let (summed, sum) = whole.split_at_mut(to - from - 2);
        let total: u64 = summed.iter().map(|byte| u64::from(*byte)).sum();
        sum.copy_from_slice(&(total as u16).to_be_bytes());
    }
}

/// Bytes to be read: an image, whole or spoilt, or noise.
fn candidate(case: &Case, dice: &mut Dice) -> Vec<u8> {
    let (mut bytes, record) = image(case);
    let at = dice.below(bytes.len() as u64) as usize;
    match dice.below(8) {
        0 | 1 => (),
        2 => bytes.truncate(at),
        3 => bytes.resize(bytes.len() + dice.pick(&[1, 2, CHANGE, HEAD, ROOM]), dice.pick(&[0, 1, 0xc7])),
        4 => bytes[at] = dice.word() as u8,
        // Nothing but the form can refuse these.
        5 | 6 => {
            for _ in 0..1 + dice.below(2) {
                let near = dice.pick(&[4, 8, 12, 16, 17, 18, 19, 20, bytes.len() - 3, at]);
                bytes[near] = dice.pick(&[0, 1, 2, 3, 4, 7, 8, 0xff, bytes[near].wrapping_add(1), bytes[near].wrapping_sub(1)]);
                seal(&record, &mut bytes, start(&record, near));
            }
        }
        _ => {
            let front = dice.pick(&[0, 2, 4, 5]);
            let len = dice.pick(&[0, 1, 3, 4, HEAD - 1, HEAD, HEAD + 1, HEAD + CHANGE, ROOM, ROOM + 1]);
            bytes.truncate(front.min(len));
            bytes.resize_with(len, || dice.word() as u8);
            seal(&record, &mut bytes, 0);
        }
    }
    bytes
}

pub fn read(turn: &mut Turn, case: &Case, dice: &mut Dice) -> Result<Answer, String> {
    let size = if dice.one_in(10) { dice.word() } else { dice.below(LARGEST_BATCH + 1) };
    let given = candidate(case, dice);
    let mut lent = Guarded::default();
    lent.load(&given);
    let made = plain::read_image(size, lent.bytes(), turn.log.words_mut(), turn.snapshot.words_mut());
    hold(lent.stands() && lent.bytes() == given, "bytes that are lent to be read changed")?;
    let of = made.said;
    let fits = size <= LARGEST_BATCH && case.state.log.len() == LOG_WORDS && case.state.snapshot.len() == SNAPSHOT_WORDS;
    hold((of.number == 11) != fits, format_args!("a log of this size and these lengths: it says {of:?}"))?;
    if of.number != 0 {
        hold(made.index == IndexRecord::default(), format_args!("refused, it hands back {:?}", made.index))?;
        let inside = of.carried <= given.len() as u64 && (of.number == 15 || of.carried == 0);
        hold(inside, format_args!("{} bytes: it says {of:?}", given.len()))?;
    }
    let short = &given[..given.len().min(ROOM + 1)];
    hold(of.number == 11 || read_anew(size, short).0 == of, "the first bytes say something else")?;
    if of.number != 0 {
        return said(of);
    }
    let read = State { record: made.index, log: turn.log.words().to_vec(), snapshot: turn.snapshot.words().to_vec() };
    hold(form::well_formed(&read) && made.index.batched == 0 && made.index.batch_size == size, "it is not well formed, or has a batch")?;
    hold(plain::well_formed(read.record, &read.log, &read.snapshot), "the library calls it ill formed")?;
    let accepted = read.record.compacted.0 + read.record.retained as u64 + read.record.stop_held as u64;
    hold((of.told, of.first) == (1, accepted), format_args!("{accepted} is due: it says {of:?}"))?;
    let mut again = vec![0; ROOM];
    let wrote = plain::write_image(read.record, &read.log, &read.snapshot, &mut again);
    hold(wrote.number == 0 && again[..wrote.first as usize] == given, "bytes that were read are not the image of what they gave")?;
    reply(turn, made)
}
