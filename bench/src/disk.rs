//! A fresh folder on the disk, and the file system that it lies in.

use std::path::{Path, PathBuf};

extern "C" {
    fn sync();
}

/// Removed at the end, with what lies in it.
pub struct Folder(PathBuf);

impl Folder {
    /// In $TMPDIR where that is set, otherwise in target/ of the current folder: /tmp may well lie in memory.
    pub fn new() -> Folder {
        let above = std::env::var_os("TMPDIR").map_or(PathBuf::from("target"), PathBuf::from);
        let folder = above.join(format!("velichundam-desk-{}", std::process::id()));
        std::fs::create_dir_all(&above).expect("the folder above is made");
        std::fs::create_dir(&folder).expect("a fresh folder is made");
        Folder(folder.canonicalize().expect("it is there"))
    }

    pub fn path(&self, name: &str) -> PathBuf {
        self.0.join(name)
    }

    /// Removes every file, and waits until the disk has nothing left to do for what came before.
    pub fn clear(&self) {
        for entry in std::fs::read_dir(&self.0).expect("the folder is read") {
            std::fs::remove_file(entry.expect("the folder is read").path()).expect("the file is removed");
        }
        unsafe { sync() };
    }

    /// Its kind and its device.
    pub fn file_system(&self) -> String {
        let mounts = std::fs::read_to_string("/proc/self/mounts").unwrap_or_default();
        of_mounts(&mounts, &self.0).unwrap_or("an unknown file system".into())
    }
}

impl Drop for Folder {
    fn drop(&mut self) {
        std::fs::remove_dir_all(&self.0).expect("the folder is removed");
    }
}

/// Of the mounts whose folder is the path or above it, the deepest; of those on one folder, the last, which hides the others.
fn of_mounts(mounts: &str, path: &Path) -> Option<String> {
    let found = mounts.lines().filter_map(|line| {
        let mut words = line.split(' ');
        let (device, folder, kind) = (words.next()?, words.next()?, words.next()?);
        path.starts_with(folder).then(|| (folder.len(), format!("{kind} on {device}")))
    });
    found.max_by_key(|(depth, _)| *depth).map(|(_, name)| name)
}
