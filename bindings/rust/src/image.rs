//! The stored image of a log: how many bytes it has, and a file that holds it. `README.md` in the repository says how it is laid out.
use crate::entry::{ENTRIES, KEYS};
use crate::plain::{METADATA, NODES};
use crate::{Index, Refusal};
use std::fs::{self, File, OpenOptions};
use std::io::{self, Read, Write};
use std::path::{Path, PathBuf};
use std::{error, fmt};

/// Bytes of a header.
pub const HEAD: usize = 63;
/// Bytes of a key's record, and of an entry's.
pub const CHANGE: usize = 20;
/// Bytes of a stop-sign's record without its nodes and its metadata.
pub const STOP: usize = 10;
/// Bytes of the largest image.
pub const ROOM: usize = HEAD + (KEYS + ENTRIES) * CHANGE + STOP + NODES * 8 + METADATA;

/// Why a file gave no index.
#[derive(Debug)]
pub enum LoadError {
    /// It cannot be read; where it is not there the kind is [`NotFound`](io::ErrorKind::NotFound).
    Io(io::Error),
    /// It was read, and is no image, or the batch size is none.
    Refused(Refusal),
}

impl fmt::Display for LoadError {
    fn fmt(&self, f: &mut fmt::Formatter<'_>) -> fmt::Result {
        match self {
            LoadError::Io(why) => why.fmt(f),
            LoadError::Refused(why) => why.fmt(f),
        }
    }
}

impl error::Error for LoadError {}

impl From<io::Error> for LoadError {
    fn from(why: io::Error) -> LoadError {
        LoadError::Io(why)
    }
}

impl From<Refusal> for LoadError {
    fn from(why: Refusal) -> LoadError {
        LoadError::Refused(why)
    }
}

/// A new file beside a path, with a name that no other has: two saves at once do not write into one file.
fn beside(path: &Path) -> io::Result<(File, PathBuf)> {
    let name = path.file_name().ok_or_else(|| io::Error::new(io::ErrorKind::InvalidInput, "the path names no file"))?;
    let mut tried: u64 = 0;
    loop {
        let mut other = name.to_os_string();
        other.push(format!(".new{tried}"));
        let other = path.with_file_name(other);
        match OpenOptions::new().write(true).create_new(true).open(&other) {
            Err(why) if why.kind() == io::ErrorKind::AlreadyExists => tried += 1,
            made => return made.map(|file| (file, other)),
        }
    }
}

fn replace(path: &Path, bytes: &[u8]) -> io::Result<()> {
    let (mut file, other) = beside(path)?;
    // The bytes reach the device before the name is theirs: else a crash could leave the name to an empty file.
    let named = file.write_all(bytes).and_then(|()| file.sync_all()).and_then(|()| fs::rename(&other, path));
    if named.is_err() {
        let _ = fs::remove_file(&other);
    }
    named?;
    let folder = path.parent().filter(|folder| !folder.as_os_str().is_empty());
    File::open(folder.unwrap_or(Path::new(".")))?.sync_all()
}

impl Index {
    /// Saves its image in a file, in place of what the file held: it is written beside it, and renamed when it has reached the device. So
    /// whoever reads the file, after a crash too, finds all of the old one or all of the new one. Where this fails the old one stands, or
    /// the new one does and may not outlast a crash of the machine.
    ///
    /// Entries that wait in the batch are not saved: [`flush_batch`](Index::flush_batch) first. A save that is killed can leave its
    /// file behind, whose name is the path's with `.new` and a number.
    ///
    /// ```
    /// use kotuseraw::{BlockPlace, Entry, Index, LogIndex};
    /// let path = std::env::temp_dir().join(format!("kotuseraw-save-{}", std::process::id()));
    /// let mut index = Index::fresh(0)?;
    /// index.append(Entry::put(7, BlockPlace(70)))?;
    /// index.set_decided_idx(LogIndex(1))?;
    /// index.save(&path)?;
    /// assert_eq!(Index::load(&path, 0)?, index);
    /// # std::fs::remove_file(&path)?;
    /// # Ok::<(), Box<dyn std::error::Error>>(())
    /// ```
    pub fn save(&self, path: impl AsRef<Path>) -> io::Result<()> {
        replace(path.as_ref(), &self.to_image())
    }

    /// Loads the log whose image a file holds, with this batch size.
    ///
    /// ```
    /// use kotuseraw::{Index, LoadError};
    /// # let path = std::env::temp_dir().join(format!("kotuseraw-load-{}", std::process::id()));
    /// let index = match Index::load(&path, 0) {
    ///     Err(LoadError::Io(why)) if why.kind() == std::io::ErrorKind::NotFound => Index::fresh(0)?,
    ///     loaded => loaded?,
    /// };
    /// # assert_eq!(index, Index::fresh(0)?);
    /// # Ok::<(), Box<dyn std::error::Error>>(())
    /// ```
    pub fn load(path: impl AsRef<Path>, batch_size: u64) -> Result<Index, LoadError> {
        // One byte more than an image can have says as much as all that follow.
        let most = ROOM + 1;
        let mut bytes = Vec::with_capacity(most);
        File::open(path)?.take(most as u64).read_to_end(&mut bytes)?;
        Ok(Index::from_image(&bytes, batch_size)?)
    }
}
