//! The folder that keeps results: one at a time works on it, and what is in it is whole.

use crate::findings::Finding;
use crate::kept::{self, MARK, MARKER};
use crate::outcome::NotRun;
use crate::shown;
use crate::system;
use crate::table;
use crate::texts::{self, Texts};
use std::ffi::OsString;
use std::fs::{self, File, OpenOptions};
use std::io::{self, Read, Write};
use std::os::unix::fs::MetadataExt;
use std::path::{Path, PathBuf};
use std::sync::atomic::{AtomicUsize, Ordering};
use std::thread;
use std::time::{Duration, Instant};

/// How long a run waits for another.
const PATIENCE: Duration = Duration::from_secs(3);

pub struct Results {
    pub folder: PathBuf,
    /// The marker, which is the lock too.
    lock: File,
    prepared: AtomicUsize,
}

/// A result that is written and not yet at its place.
pub struct Prepared {
    at: PathBuf,
    name: OsString,
}

impl Results {
    /// Opens the folder, which is made where it is not there, and takes its lock.
    pub fn open(folder: &Path, spool: &Path) -> Result<Results, NotRun> {
        let name = shown::name(folder.as_os_str());
        let cannot = |why: io::Error| NotRun(format!("'{name}' cannot be written: {why}"));
        texts::open_folder(spool)?;
        let folder = &real_path(folder).map_err(cannot)?;
        apart(folder, spool).map_err(cannot)?;
        fs::create_dir_all(folder).map_err(cannot)?;
        may_be_ours(folder).map_err(cannot)?;
        let lock = locked(folder).map_err(cannot)?;
        let results = Results {
            folder: folder.clone(),
            lock,
            prepared: AtomicUsize::new(0),
        };
        results.clear().map_err(cannot)?;
        Ok(results)
    }

    /// Makes the folders that are needed, and clears away what a run that was killed left.
    fn clear(&self) -> io::Result<()> {
        let working = self.working();
        match fs::remove_dir_all(&working) {
            Err(why) if why.kind() != io::ErrorKind::NotFound => return Err(why),
            _ => {}
        }
        fs::create_dir(&working)?;
        fs::create_dir_all(kept::batches(&self.folder))
    }

    fn working(&self) -> PathBuf {
        self.folder.join(".working")
    }

    /// Writes a result to a folder of its own.
    pub fn prepare(
        &self,
        finding: &Finding,
        texts: &Texts,
        printed: &[u8],
    ) -> io::Result<Prepared> {
        let number = self.prepared.fetch_add(1, Ordering::Relaxed);
        let at = self.working().join(number.to_string());
        fs::create_dir(&at)?;
        kept::write(&at, finding, texts, printed)?;
        let name = finding.batch.clone();
        Ok(Prepared { at, name })
    }

    /// Brings what was prepared to the disk: before it is at its place, so that a result is whole whenever it is seen.
    pub fn sync(&self) -> io::Result<()> {
        system::sync_file_system(&self.lock)
    }

    /// Puts a result to its place.
    pub fn keep(&self, prepared: &Prepared) -> io::Result<()> {
        fs::rename(
            &prepared.at,
            kept::batches(&self.folder).join(&prepared.name),
        )
    }

    /// Puts the table in the place of the last one, and ends the work on the folder.
    pub fn keep_table(&self, text: &str) -> Result<(), NotRun> {
        let file = &*table::FILE.to_string_lossy();
        let new = self.working().join(file);
        let kept = fs::write(&new, text)
            .and_then(|()| self.sync())
            .and_then(|()| fs::rename(&new, self.folder.join(file)))
            .and_then(|()| self.sync())
            .and_then(|()| fs::remove_dir_all(self.working()));
        kept.map_err(|why| NotRun(format!("{file} cannot be written: {why}")))
    }
}

/// The real path of a folder whose last parts may not be there yet.
fn real_path(path: &Path) -> io::Result<PathBuf> {
    let why = match fs::canonicalize(path) {
        Err(why) if why.kind() == io::ErrorKind::NotFound => why,
        real => return real,
    };
    // What is not there can be made, but not be left again by `..`, which has no name.
    let name = path.file_name().ok_or(why)?;
    let parent = path
        .parent()
        .filter(|parent| !parent.as_os_str().is_empty());
    Ok(real_path(parent.unwrap_or(Path::new(".")))?.join(name))
}

/// Refuses a folder of results that is the spool, lies in it, or holds it.
fn apart(folder: &Path, spool: &Path) -> io::Result<()> {
    let spool = fs::canonicalize(spool)?;
    if lies_in(folder, &spool)? {
        return Err(io::Error::other("it is not to lie in the spool"));
    }
    if folder.exists() && lies_in(&spool, folder)? {
        return Err(io::Error::other("the spool is not to lie in it"));
    }
    Ok(())
}

/// Whether a real path is a folder or lies in it, be it mounted under two names.
fn lies_in(path: &Path, folder: &Path) -> io::Result<bool> {
    let identity = |path: &Path| fs::metadata(path).map(|about| (about.dev(), about.ino()));
    let folder = identity(folder)?;
    let above = |part: &Path| identity(part).is_ok_and(|found| found == folder);
    Ok(path.ancestors().any(above))
}

/// Refuses a folder that holds something and is not marked.
fn may_be_ours(folder: &Path) -> io::Result<()> {
    let mut entries = fs::read_dir(folder)?;
    if entries.next().is_none() || folder.join(&*MARKER.to_string_lossy()).is_file() {
        return Ok(());
    }
    Err(io::Error::other(
        "it holds files that are not results of this program",
    ))
}

/// The marker of the folder, with its lock taken.
fn locked(folder: &Path) -> io::Result<File> {
    let mut marker = OpenOptions::new()
        .read(true)
        .append(true)
        .create(true)
        .open(folder.join(&*MARKER.to_string_lossy()))?;
    let began = Instant::now();
    while !system::try_lock(&marker)? {
        if began.elapsed() > PATIENCE {
            return Err(io::Error::other("another run is at work on it"));
        }
        thread::sleep(Duration::from_millis(20));
    }
    let mut mark = Vec::new();
    marker.read_to_end(&mut mark)?;
    if mark.is_empty() {
        marker.write_all(MARK)?;
        return Ok(marker);
    }
    match mark == MARK {
        true => Ok(marker),
        false => Err(io::Error::other(
            "it was made by another version of this program",
        )),
    }
}
