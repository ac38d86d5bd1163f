//! The few functions of the C library that the standard library does not offer.

use std::ffi::{c_char, c_int, c_long, c_void, CString};
use std::fs::File;
use std::os::fd::{AsRawFd, FromRawFd, OwnedFd};
use std::os::unix::ffi::OsStrExt;
use std::os::unix::process::CommandExt;
use std::path::Path;
use std::process::Command;

pub const SIGINT: c_int = 2;
pub const SIGKILL: c_int = 9;
pub const SIGTERM: c_int = 15;

mod c {
    use super::*;
    extern "C" {
        pub fn kill(pid: c_int, signal: c_int) -> c_int;
        pub fn mkfifo(path: *const c_char, mode: u32) -> c_int;
        pub fn geteuid() -> u32;
        pub fn flock(file: c_int, operation: c_int) -> c_int;
        pub fn pipe(ends: *mut c_int) -> c_int;
        pub fn signal(signal: c_int, handler: usize) -> usize;
        pub fn ptrace(
            request: c_long,
            pid: c_int,
            address: *mut c_void,
            data: *mut c_void,
        ) -> c_long;
        pub fn waitpid(pid: c_int, status: *mut c_int, options: c_int) -> c_int;
    }
}

pub use c::{ptrace, waitpid};

/// Sends a signal to a process that this program started and has not waited for.
pub fn kill(pid: u32, signal: c_int) {
    // SAFETY: a call with numbers only.
    unsafe { c::kill(pid as c_int, signal) };
}

pub fn make_fifo(path: &Path) {
    let path = CString::new(path.as_os_str().as_bytes()).unwrap();
    // SAFETY: the string is alive and ended by a zero byte.
    assert_eq!(unsafe { c::mkfifo(path.as_ptr(), 0o644) }, 0, "a fifo");
}

pub fn is_root() -> bool {
    // SAFETY: a call without arguments.
    unsafe { c::geteuid() == 0 }
}

/// Takes the lock of a file, until the file is closed.
pub fn lock(file: &File) {
    // SAFETY: the file is open.
    assert_eq!(unsafe { c::flock(file.as_raw_fd(), 2 | 4) }, 0, "the lock");
}

/// The writing end of a pipe that nobody reads.
pub fn unread_pipe() -> OwnedFd {
    let mut ends = [0; 2];
    // SAFETY: there is room for both ends, and each becomes owned once.
    unsafe {
        assert_eq!(c::pipe(ends.as_mut_ptr()), 0, "a pipe");
        drop(OwnedFd::from_raw_fd(ends[0]));
        OwnedFd::from_raw_fd(ends[1])
    }
}

/// Lets Ctrl-C reach a command, as from a terminal: a shell lets what it runs in the background ignore it.
pub fn heeds_interrupts(command: &mut Command) -> &mut Command {
    // SAFETY: `signal` may be called between fork and exec.
    unsafe {
        command.pre_exec(|| {
            c::signal(SIGINT, 0);
            Ok(())
        })
    }
}
