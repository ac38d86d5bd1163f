//! Calls of the C library that the standard library does not offer, each behind a safe function. The numbers are those of
//! Linux on x86-64, for which the proved library is built.

use std::ffi::{c_char, c_int, c_uint, CStr, CString};
use std::fs::{self, File, OpenOptions};
use std::io;
use std::os::fd::{AsRawFd, FromRawFd};
use std::os::unix::ffi::OsStrExt;
use std::os::unix::fs::OpenOptionsExt;
use std::path::Path;
use std::sync::atomic::{AtomicBool, Ordering};

extern "C" {
    fn openat(folder: c_int, name: *const c_char, flags: c_int, ...) -> c_int;
    fn renameat2(
        from_folder: c_int,
        from: *const c_char,
        to_folder: c_int,
        to: *const c_char,
        flags: c_uint,
    ) -> c_int;
    fn flock(file: c_int, operation: c_int) -> c_int;
    fn syncfs(file: c_int) -> c_int;
    fn fcntl(file: c_int, command: c_int, ...) -> c_int;
    fn signal(number: c_int, handler: usize) -> usize;
    fn unlinkat(folder: c_int, name: *const c_char, flags: c_int) -> c_int;
    fn geteuid() -> c_uint;
}

const O_NOCTTY: c_int = 0o400;
const O_NONBLOCK: c_int = 0o4000;
const O_DIRECTORY: c_int = 0o200000;
const O_NOFOLLOW: c_int = 0o400000;
const O_CLOEXEC: c_int = 0o2000000;
const O_PATH: c_int = 0o10000000;
const AT_FDCWD: c_int = -100;
const RENAME_NOREPLACE: c_uint = 1;
const LOCK_EX: c_int = 2;
const LOCK_NB: c_int = 4;
const F_GETFD: c_int = 1;
const SIGHUP: c_int = 1;
const SIGINT: c_int = 2;
const SIGTERM: c_int = 15;
const SIG_DFL: usize = 0;
const SIG_IGN: usize = 1;

/// A folder, to open files in. It stays the same folder whatever becomes of its name.
pub fn open_folder(path: &Path) -> io::Result<File> {
    OpenOptions::new()
        .read(true)
        .custom_flags(O_PATH | O_DIRECTORY)
        .open(path)
}

/// A folder, and no link to one, that can be locked.
pub fn open_to_lock(path: &Path) -> io::Result<File> {
    OpenOptions::new()
        .read(true)
        .custom_flags(O_DIRECTORY | O_NOFOLLOW)
        .open(path)
}

/// Opens a file of a folder for reading, without waiting for the other end of a pipe.
pub fn open_in(folder: &File, name: &CStr) -> io::Result<File> {
    open_with(folder, name, O_NONBLOCK | O_NOCTTY)
}

/// Whether a folder has this name, be it a link that leads nowhere.
pub fn has_name(folder: &File, name: &CStr) -> bool {
    open_with(folder, name, O_PATH | O_NOFOLLOW).is_ok()
}

/// What a name of a folder leads to, to ask about and not to read.
pub fn find(folder: &File, name: &CStr) -> io::Result<File> {
    open_with(folder, name, O_PATH)
}

fn open_with(folder: &File, name: &CStr, flags: c_int) -> io::Result<File> {
    // SAFETY: the folder is open and the name ends in a zero byte.
    let file = unsafe { openat(folder.as_raw_fd(), name.as_ptr(), flags | O_CLOEXEC) };
    if file < 0 {
        return Err(io::Error::last_os_error());
    }
    // SAFETY: the call has just opened it, and nobody else has it.
    Ok(unsafe { File::from_raw_fd(file) })
}

/// Removes a file from a folder that is open for reading.
pub fn remove_in(folder: &File, name: &CStr) -> io::Result<()> {
    // SAFETY: the folder is open and the name ends in a zero byte.
    match unsafe { unlinkat(folder.as_raw_fd(), name.as_ptr(), 0) } {
        0 => Ok(()),
        _ => Err(io::Error::last_os_error()),
    }
}

/// The number of the user whose rights the program has.
pub fn user() -> u32 {
    // SAFETY: a call without arguments, which always answers.
    unsafe { geteuid() }
}

/// Renames a folder to a name that nothing has. Where the file system cannot see to that in one step, an empty folder of the
/// name may be replaced, and nothing else.
pub fn rename_new(from: &Path, to: &Path) -> io::Result<()> {
    let [from_name, to_name] = [from, to].map(|path| CString::new(path.as_os_str().as_bytes()));
    let (from_name, to_name) = (from_name?, to_name?);
    let (from_name, to_name) = (from_name.as_ptr(), to_name.as_ptr());
    // SAFETY: both names end in a zero byte, and live until the call returns.
    if unsafe { renameat2(AT_FDCWD, from_name, AT_FDCWD, to_name, RENAME_NOREPLACE) } == 0 {
        return Ok(());
    }
    match io::Error::last_os_error() {
        why if why.kind() == io::ErrorKind::InvalidInput => fs::rename(from, to),
        why => Err(why),
    }
}

/// Takes the lock of a file for as long as it is open; false where another process has it.
pub fn try_lock(file: &File) -> io::Result<bool> {
    // SAFETY: the file is open.
    if unsafe { flock(file.as_raw_fd(), LOCK_EX | LOCK_NB) } == 0 {
        return Ok(true);
    }
    match io::Error::last_os_error() {
        why if why.kind() == io::ErrorKind::WouldBlock => Ok(false),
        why => Err(why),
    }
}

/// Brings all that was written to the file system of this file to its disk.
pub fn sync_file_system(file: &File) -> io::Result<()> {
    // SAFETY: the file is open.
    match unsafe { syncfs(file.as_raw_fd()) } {
        0 => Ok(()),
        _ => Err(io::Error::last_os_error()),
    }
}

static STOPPED: AtomicBool = AtomicBool::new(false);

/// From now on Ctrl-C, a hangup and a request to end are only noted, once; the second one ends the program.
pub fn note_signals() {
    for number in [SIGHUP, SIGINT, SIGTERM] {
        // SAFETY: the handler does only what a handler may.
        let before = unsafe { signal(number, note_signal as *const () as usize) };
        if before == SIG_IGN {
            // SAFETY: this puts back what was there.
            unsafe { signal(number, SIG_IGN) };
        }
    }
}

extern "C" fn note_signal(number: c_int) {
    STOPPED.store(true, Ordering::SeqCst);
    // SAFETY: `signal` may be called in a handler.
    unsafe { signal(number, SIG_DFL) };
}

/// Whether a signal to stop was noted.
pub fn stopped() -> bool {
    STOPPED.load(Ordering::SeqCst)
}

static OUTPUT_CLOSED: AtomicBool = AtomicBool::new(false);

/// Whether the program was started with its standard output closed. The standard library opens /dev/null in its place before
/// `main`, which would take every byte, so this is looked at before.
pub fn output_was_closed() -> bool {
    OUTPUT_CLOSED.load(Ordering::SeqCst)
}

extern "C" fn look_at_output() {
    // SAFETY: the call asks for the flags of a descriptor, which need not be open.
    let closed = unsafe { fcntl(1, F_GETFD) } < 0;
    OUTPUT_CLOSED.store(closed, Ordering::SeqCst);
}

#[used]
#[link_section = ".init_array"]
static LOOK_AT_OUTPUT: extern "C" fn() = look_at_output;
