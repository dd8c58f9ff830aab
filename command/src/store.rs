//! The desk's journal on the disk: locked for one desk, and appended to and synced before a request is answered.

use crate::failure::{named, warn, Failure};
use crate::journal::Text;
use crate::output::escaped;
use std::ffi::OsStr;
use std::fs::{File, OpenOptions, TryLockError};
use std::io::{self, Write};
use std::os::unix::fs::MetadataExt;
use std::path::Path;

/// A journal that this desk alone appends to.
pub struct Store {
    name: String,
    file: File,
    /// the bytes of its whole lines
    length: u64,
    sync: bool,
}

impl Store {
    /// Opens a journal, or makes one, locks it, and reads it.
    pub fn open(journal: &OsStr, sync: bool) -> Result<(Store, Text), Failure> {
        let name = named(journal);
        let failed = |error: io::Error| Failure::io(&name, &error);
        let file = OpenOptions::new().read(true).append(true).create(true).open(journal).map_err(failed)?;
        if !file.metadata().map_err(failed)?.is_file() {
            return Err(Failure::file(&name, "not a regular file, so no journal to append to"));
        }
        lock(&name, &file)?;
        let text = Text::of(name.clone(), &file)?;
        if sync {
            on_the_disk(&file, journal).map_err(failed)?;
        }
        let length = text.bytes.len() as u64;
        Ok((Store { name, file, length, sync }, text))
    }

    /// Drops a torn last line from the disk, after saying what it was.
    pub fn drop_line(&mut self, line: usize, torn: &[u8]) -> Result<(), Failure> {
        warn(&format!("{}:{line}: dropped the torn line: {}", self.name, escaped(torn, torn.len())));
        self.length -= torn.len() as u64;
        self.cut_back().map_err(|error| Failure::io(&self.name, &error))
    }

    /// Whether that file is this journal.
    pub fn is(&self, other: &File) -> bool {
        let key = |file: &File| file.metadata().map(|data| (data.dev(), data.ino()));
        matches!((key(&self.file), key(other)), (Ok(one), Ok(other)) if one == other)
    }

    /// Appends a line and syncs it. Where that fails the journal is cut back to what it was, as far as the disk allows.
    pub fn append(&mut self, line: &[u8]) -> Result<(), Failure> {
        let written = self.file.write_all(line).and_then(|()| if self.sync { self.file.sync_data() } else { Ok(()) });
        if let Err(error) = written {
            let _ = self.cut_back();
            return Err(Failure::io(&self.name, &error));
        }
        self.length += line.len() as u64;
        Ok(())
    }

    fn cut_back(&self) -> io::Result<()> {
        self.file.set_len(self.length)?;
        self.file.sync_all()
    }
}

/// Syncs what another desk may have left unsynced, since answers rest on it; and the folder of a journal that may have just been made, so that it is found after
/// a crash.
fn on_the_disk(file: &File, journal: &OsStr) -> io::Result<()> {
    file.sync_all()?;
    if file.metadata()?.len() > 0 {
        return Ok(());
    }
    let folder = Path::new(journal).parent().filter(|folder| !folder.as_os_str().is_empty()).unwrap_or(Path::new("."));
    match File::open(folder)?.sync_all() {
        // Some file systems sync no folder.
        Err(error) if error.kind() == io::ErrorKind::InvalidInput => Ok(()),
        synced => synced,
    }
}

/// Locks the file for this desk alone, without waiting.
fn lock(name: &str, file: &File) -> Result<(), Failure> {
    match file.try_lock() {
        Ok(()) => Ok(()),
        Err(TryLockError::WouldBlock) => Err(Failure::file(name, &format!("locked: {} may have it open", holder(file)))),
        Err(TryLockError::Error(error)) => Err(Failure::io(name, &error)),
    }
}

/// Who holds the lock, as far as the system tells.
fn holder(file: &File) -> String {
    let unknown = || "another desk".to_string();
    let (Ok(data), Ok(locks)) = (file.metadata(), std::fs::read_to_string("/proc/locks")) else { return unknown() };
    // 1: FLOCK  ADVISORY  WRITE 4711 fe:01:131073 0 EOF
    let inode = format!(":{}", data.ino());
    let process = locks.lines().map(|line| line.split_whitespace().collect::<Vec<_>>()).find_map(|words| match words.as_slice() {
        [_, "FLOCK", _, "WRITE", process, place, ..] if place.ends_with(&inode) => Some(process.to_string()),
        _ => None,
    });
    process.map_or_else(unknown, |process| format!("the desk of process {process}"))
}

/// A file-size limit then fails the write, and does not end the process.
pub fn outlive_a_file_size_limit() {
    extern "C" {
        fn signal(number: i32, handler: usize) -> usize;
    }
    const SIGXFSZ: i32 = 25;
    const IGNORE: usize = 1;
    unsafe { signal(SIGXFSZ, IGNORE) };
}
