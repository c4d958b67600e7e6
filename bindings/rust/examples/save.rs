//! `save FILE`: appends an entry to the index in a file, or to a fresh one where there is no file yet, and saves it.
use kotuseraw::{BlockPlace, Entry, Index, LoadError};
use std::{env, error, io};

fn main() -> Result<(), Box<dyn error::Error>> {
    let path = env::args_os().nth(1).ok_or("save FILE")?;
    let mut index = match Index::load(&path, 0) {
        Err(LoadError::Io(why)) if why.kind() == io::ErrorKind::NotFound => Index::fresh(0)?,
        loaded => loaded?,
    };
    let next = index.get_accepted_idx()?.0;
    index.append(Entry::put(next, BlockPlace(next)))?;
    index.save(&path)?;
    Ok(())
}
