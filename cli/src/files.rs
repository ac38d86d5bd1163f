//! Files of a folder, each read once, in such a way that a change meanwhile is seen.

use crate::outcome::NotRun;
use crate::system;
use std::ffi::CStr;
use std::fs::{File, Metadata};
use std::io::{self, Read};
use std::os::unix::fs::MetadataExt;
use std::thread;
use std::time::{Duration, SystemTime, UNIX_EPOCH};

/// Longer than the step by which a file system counts its times of change: of a file that changed within such a step a second
/// change may leave the time as it was.
const STEP: Duration = Duration::from_millis(20);
/// The same of one that counts whole seconds, or every second one.
const LONG_STEP: Duration = Duration::from_millis(2_020);

/// Which file it is, how long, and when it changed last.
#[derive(Clone, Copy, Debug, PartialEq, Eq)]
struct Stamp {
    device: u64,
    inode: u64,
    size: u64,
    /// Of the contents, and of the contents or anything else; in seconds and billionths.
    written: (i64, i64),
    changed: (i64, i64),
}

impl Stamp {
    fn of(about: &Metadata) -> Stamp {
        Stamp {
            device: about.dev(),
            inode: about.ino(),
            size: about.size(),
            written: (about.mtime(), about.mtime_nsec()),
            changed: (about.ctime(), about.ctime_nsec()),
        }
    }

    /// How long to wait until a further change would show in its times; none where it changed long ago.
    fn unsettled(&self, now: SystemTime) -> Option<Duration> {
        let step = match self.written.1 == 0 && self.changed.1 == 0 {
            true => LONG_STEP,
            false => STEP,
        };
        // The other time can be set to any, which changes this one.
        let (seconds, nanos) = self.changed;
        let since = Duration::new(seconds.max(0) as u64, nanos as u32);
        let age = now.duration_since(UNIX_EPOCH + since);
        age.map_or(true, |age| age <= step).then_some(step)
    }
}

/// A file that was opened, as it was before the first byte of any was read.
struct Opened {
    file: File,
    before: Stamp,
}

/// Reads the first bytes of each file; none of one that is not there. All are opened before the first is read, and behind the last
/// read each is looked at again, as it was opened and by its name: what is given back was there at one time, unless links were turned
/// there and back, or a file was written through memory that it is mapped to, which leaves its times for a while.
pub fn read(folder: &File, names: &[&CStr], limit: u64) -> Result<Vec<Option<Vec<u8>>>, NotRun> {
    let mut opened = Vec::new();
    for name in names {
        opened.push(open(folder, name)?);
    }
    settle(names, &opened)?;
    let mut contents = Vec::new();
    for (name, file) in names.iter().zip(&opened) {
        let bytes = file.as_ref().map(|file| front(&file.file, limit));
        contents.push(bytes.transpose().map_err(|why| unread(name, &why))?);
    }
    for ((name, file), bytes) in names.iter().zip(&opened).zip(&contents) {
        let stays = match (file, bytes) {
            (Some(file), Some(bytes)) => stays(folder, name, file, bytes, limit),
            _ => Ok(!system::has_name(folder, name)),
        };
        if !stays.map_err(|why| unread(name, &why))? {
            return Err(changed(name));
        }
    }
    Ok(contents)
}

/// All of one file, or none where it is not there; for one that is replaced whole, by a rename.
pub fn read_one(folder: &File, name: &CStr) -> Result<Option<Vec<u8>>, NotRun> {
    let opened = open(folder, name)?;
    let bytes = opened.map(|opened| front(&opened.file, u64::MAX));
    bytes.transpose().map_err(|why| unread(name, &why))
}

/// Opens a file, or finds that it is not there. A link that leads nowhere is there.
fn open(folder: &File, name: &CStr) -> Result<Option<Opened>, NotRun> {
    let opened = system::open_in(folder, name).and_then(|file| {
        let about = file.metadata()?;
        if !about.is_file() {
            return Err(io::Error::other("it is not a regular file"));
        }
        let before = Stamp::of(&about);
        Ok(Opened { file, before })
    });
    match opened {
        Ok(opened) => Ok(Some(opened)),
        Err(why) if why.kind() == io::ErrorKind::NotFound && !system::has_name(folder, name) => {
            Ok(None)
        }
        Err(why) => Err(unread(name, &why)),
    }
}

/// Where a file changed just now, waits until a further change would show, and sees that there was none.
fn settle(names: &[&CStr], opened: &[Option<Opened>]) -> Result<(), NotRun> {
    let now = SystemTime::now();
    let steps = opened.iter().flatten();
    let Some(step) = steps.filter_map(|file| file.before.unsettled(now)).max() else {
        return Ok(());
    };
    thread::sleep(step);
    for (name, opened) in names.iter().zip(opened) {
        let Some(Opened { file, before }) = opened else {
            continue;
        };
        let about = file.metadata().map_err(|why| unread(name, &why))?;
        if Stamp::of(&about) != *before {
            return Err(changed(name));
        }
    }
    Ok(())
}

fn front(file: &File, limit: u64) -> io::Result<Vec<u8>> {
    let mut bytes = Vec::new();
    file.take(limit).read_to_end(&mut bytes)?;
    Ok(bytes)
}

/// Whether a file is as it was before, under its name too, and as long as what was read of it.
fn stays(
    folder: &File,
    name: &CStr,
    opened: &Opened,
    bytes: &[u8],
    limit: u64,
) -> io::Result<bool> {
    let Opened { file, before } = opened;
    let named = match system::find(folder, name) {
        Err(why) if why.kind() == io::ErrorKind::NotFound => return Ok(false),
        found => Stamp::of(&found?.metadata()?),
    };
    let whole = before.size.min(limit) == bytes.len() as u64;
    Ok(whole && named == *before && Stamp::of(&file.metadata()?) == *before)
}

fn unread(name: &CStr, why: &io::Error) -> NotRun {
    let name = name.to_string_lossy();
    NotRun(format!("{name} cannot be read: {why}"))
}

fn changed(name: &CStr) -> NotRun {
    let name = name.to_string_lossy();
    NotRun(format!("{name} changed while it was read"))
}

#[cfg(test)]
mod tests {
    use super::*;

    #[test]
    fn what_changed_just_now_is_not_settled() {
        let at = |seconds: u64, nanos: u32| UNIX_EPOCH + Duration::new(seconds, nanos);
        let stamp = |written, changed| Stamp {
            device: 1,
            inode: 1,
            size: 0,
            written,
            changed,
        };
        let old = stamp((5, 0), (7, 500_000_000));
        assert_eq!(old.unsettled(at(7, 520_000_001)), None);
        assert_eq!(old.unsettled(at(7, 520_000_000)), Some(STEP));
        assert_eq!(old.unsettled(at(7, 500_000_000)), Some(STEP));
        // A clock that was set back, or that of another machine.
        assert_eq!(old.unsettled(at(6, 0)), Some(STEP));
        let set_to_later = stamp((9, 0), (7, 500_000_000));
        assert_eq!(set_to_later.unsettled(at(8, 0)), None);
        assert_eq!(stamp((-5, 3), (-5, 3)).unsettled(at(1, 0)), None);
        let whole_seconds = stamp((7, 0), (7, 0));
        assert_eq!(whole_seconds.unsettled(at(9, 0)), Some(LONG_STEP));
        assert_eq!(whole_seconds.unsettled(at(10, 0)), None);
    }
}
