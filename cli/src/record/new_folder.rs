//! The folder in which a batch is made before it gets its name. Its lock says that somebody is at work on it; one that nobody has
//! locked was left by a run that was killed.

use crate::system;
use crate::texts::{self, BATCH};
use std::ffi::{OsStr, OsString};
use std::fs::{self, File};
use std::io;
use std::os::unix::fs::MetadataExt;
use std::path::{Path, PathBuf};
use std::process;

/// Hidden from whoever takes the names of a folder for batches.
const PREFIX: &str = ".teaselshears-";

pub struct NewFolder {
    pub path: PathBuf,
    /// None where the file system has no locks; then nobody can take the folder for one that was left.
    _lock: Option<File>,
}

impl NewFolder {
    /// A folder of a name that nothing has.
    pub fn make(parent: &Path) -> io::Result<NewFolder> {
        let names = (0..1000).map(|number| format!("{PREFIX}{}-{number}", process::id()));
        for path in names.map(|name| parent.join(name)) {
            match fs::create_dir(&path) {
                Err(why) if why.kind() == io::ErrorKind::AlreadyExists => continue,
                made => made?,
            }
            // Until it is locked another run may take it for one that was left.
            match lock(&path) {
                Ok(None) => {}
                Ok(lock) => return Ok(NewFolder { path, _lock: lock }),
                Err(_) => return Ok(NewFolder { path, _lock: None }),
            }
        }
        Err(io::ErrorKind::AlreadyExists.into())
    }
}

/// The lock of a folder; none where another process has it, or the folder is gone from its name.
fn lock(path: &Path) -> io::Result<Option<File>> {
    let folder = match system::open_to_lock(path) {
        Err(why) if why.kind() == io::ErrorKind::NotFound => return Ok(None),
        folder => folder?,
    };
    if !system::try_lock(&folder)? {
        return Ok(None);
    }
    let identity = |about: fs::Metadata| (about.dev(), about.ino());
    let own = identity(folder.metadata()?);
    let stays = fs::symlink_metadata(path).is_ok_and(|about| identity(about) == own);
    Ok(stays.then_some(folder))
}

/// Clears away what this user's runs that were killed left in a folder. What cannot be cleared stays: it is in nobody's way.
pub fn clear_left(parent: &Path) {
    let names = texts::names_in(parent).unwrap_or_default();
    for name in names.iter().filter(|name| is_ours(name)) {
        let path = parent.join(name);
        if let Ok(Some(folder)) = lock(&path) {
            let _ = clear(&folder, &path);
        }
    }
}

/// Removes a folder that a run left; one that holds anything else is not what a run left.
fn clear(folder: &File, path: &Path) -> io::Result<()> {
    let is_text = |name: &OsString| BATCH.iter().any(|text| name == text.file());
    let own = folder.metadata()?.uid() == system::user();
    if !own || !texts::names_in(path)?.iter().all(is_text) {
        return Ok(());
    }
    for text in BATCH {
        // In the folder that is locked, whatever its name leads to by now.
        let _ = system::remove_in(folder, text.c_name());
    }
    fs::remove_dir(path)
}

/// Whether a name is one that a run gives.
fn is_ours(name: &OsStr) -> bool {
    let is_number = |word: &str| !word.is_empty() && word.bytes().all(|b| b.is_ascii_digit());
    let numbers = name.to_str().and_then(|name| name.strip_prefix(PREFIX));
    let numbers = numbers.and_then(|numbers| numbers.split_once('-'));
    numbers.is_some_and(|(process, number)| is_number(process) && is_number(number))
}

#[cfg(test)]
mod tests {
    use super::*;

    #[test]
    fn names_of_runs_are_known() {
        for name in [".teaselshears-1-0", ".teaselshears-4194304-999"] {
            assert!(is_ours(OsStr::new(name)), "{name}");
        }
        for name in [
            ".teaselshears",
            ".teaselshears-",
            ".teaselshears-1",
            ".teaselshears-1-",
            ".teaselshears--1",
            ".teaselshears-a-1",
            ".teaselshears-1-1-1",
            "teaselshears-1-0",
            ".teaselshears-notes",
        ] {
            assert!(!is_ours(OsStr::new(name)), "{name}");
        }
    }
}
