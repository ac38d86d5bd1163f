//! A command that is stopped before and behind each of its system calls: between them are the moments at which a kill, or an
//! exchange of files, makes a difference.

use crate::harness::{skip, Skipped};
use crate::system::{ptrace, waitpid};
use std::ffi::{c_int, c_void};
use std::os::unix::process::{CommandExt, ExitStatusExt};
use std::path::Path;
use std::process::{Command, ExitStatus, Stdio};
use std::{fs, io, ptr};

const TRACE_ME: i64 = 0;
const GO_TO_CALL: i64 = 24;
const SET_OPTIONS: i64 = 0x4200;
const GET_REGISTERS: i64 = 12;
const SET_REGISTERS: i64 = 13;
/// The registers of x86-64 as ptrace has them; where a call's number stands among them, and its result; and of a read the
/// file's descriptor, and how many bytes are asked for.
const REGISTERS: usize = 27;
const CALL: usize = 15;
const RESULT: usize = 10;
const FILE: usize = 14;
const ASKED: usize = 12;
const READ: u64 = 0;
/// The result of a call that failed as of a disk which cannot be read.
pub const FAILED: i64 = -5;
/// A stop at a call is told from others, threads are traced too, and all end with this program.
const OPTIONS: usize = 1 | 8 | 0x10_0000;
/// Of this thread's own children alone, and their threads.
const OWN: c_int = 0x4000_0000 | 0x2000_0000;
const STOP_AT_CALL: c_int = 5 | 0x80;
const TRAP: c_int = 5;
const STOP: c_int = 19;

/// A command that ended.
pub struct Traced {
    /// How often it was stopped.
    pub stops: usize,
    pub status: ExitStatus,
}

/// Runs a command to its end, and calls `at` at each stop with its number and the process. Nobody hears what it prints.
pub fn traced(command: &mut Command, mut at: impl FnMut(usize, u32)) -> Result<Traced, Skipped> {
    followed(unheard(command), |stop, pid, _| at(stop, pid as u32))
}

/// Runs a command to its end, with every read of a file ended at once, as if the file had no more bytes.
pub fn end_of_file(command: &mut Command) -> Result<Traced, Skipped> {
    followed(unheard(command), |_, _, thread| {
        let mut registers = registers_of(thread);
        if registers[CALL] == READ && is_behind(&registers) {
            registers[RESULT] = 0;
            move_registers(SET_REGISTERS, thread, &mut registers);
        }
    })
}

/// What becomes of a read.
#[derive(Clone, Copy)]
pub enum Fate {
    /// It gives no more than so many bytes.
    AtMost(usize),
    Fails,
}

/// Runs a command to its end, with a fate for each of the first reads of one file; those behind them go as they go. What it
/// prints goes where the command says. The results of all reads of that file stand beside how it ended.
pub fn with_fates(
    command: &mut Command,
    file: &Path,
    fates: &[Fate],
) -> Result<(Traced, Vec<i64>), Skipped> {
    let (mut results, mut asked) = (Vec::new(), 0);
    let ended = followed(command, |_, pid, thread| {
        let mut registers = registers_of(thread);
        if registers[CALL] != READ || !is_open_as(pid, registers[FILE], file) {
            return;
        }
        let fate = fates.get(results.len());
        if is_behind(&registers) {
            if let Some(Fate::Fails) = fate {
                registers[RESULT] = FAILED as u64;
            }
            // A call leaves what was asked for as it was.
            registers[ASKED] = asked;
            results.push(registers[RESULT] as i64);
        } else {
            asked = registers[ASKED];
            if let Some(Fate::AtMost(most)) = fate {
                registers[ASKED] = asked.min(*most as u64);
            }
        }
        move_registers(SET_REGISTERS, thread, &mut registers);
    })?;
    Ok((ended, results))
}

/// Whether a descriptor of a process is this file's, by its whole name.
fn is_open_as(pid: c_int, descriptor: u64, file: &Path) -> bool {
    fs::read_link(format!("/proc/{pid}/fd/{descriptor}")).is_ok_and(|name| name == file)
}

/// Nobody hears what a command prints.
fn unheard(command: &mut Command) -> &mut Command {
    command.stdout(Stdio::null()).stderr(Stdio::null())
}

fn registers_of(thread: c_int) -> [u64; REGISTERS] {
    let mut registers = [0; REGISTERS];
    move_registers(GET_REGISTERS, thread, &mut registers);
    registers
}

/// Whether a thread is stopped behind a call: before it the result is set to "no such call".
fn is_behind(registers: &[u64; REGISTERS]) -> bool {
    registers[RESULT] as i64 != -38
}

fn move_registers(request: i64, thread: c_int, registers: &mut [u64; REGISTERS]) {
    let place = registers.as_mut_ptr().cast::<c_void>();
    // SAFETY: there is room for all registers of x86-64; a request to a thread that is gone does nothing.
    unsafe { ptrace(request, thread, ptr::null_mut(), place) };
}

/// Runs a command to its end, and calls `at` at each stop with its number, the process, and the thread that stopped.
fn followed(
    command: &mut Command,
    mut at: impl FnMut(usize, c_int, c_int),
) -> Result<Traced, Skipped> {
    let pid = begun(command)?;
    let (mut stops, mut ended) = (0, None);
    while let Some((who, status)) = wait() {
        let Some(signal) = stopped(status) else {
            ended = ended.or((who == pid).then_some(status));
            continue;
        };
        if signal == STOP_AT_CALL {
            at(stops, pid, who);
            stops += 1;
        }
        // Stops of the tracing itself are no signals to hand on.
        let ours = [STOP_AT_CALL, TRAP, STOP].contains(&signal);
        order(GO_TO_CALL, who, if ours { 0 } else { signal as usize });
    }
    let status = ExitStatus::from_raw(ended.expect("the process ends last"));
    Ok(Traced { stops, status })
}

/// Starts a command that is traced; it goes on to its first call.
fn begun(command: &mut Command) -> Result<c_int, Skipped> {
    command.stdin(Stdio::null());
    // SAFETY: `ptrace` may be called between fork and exec.
    unsafe {
        command.pre_exec(
            || match ptrace(TRACE_ME, 0, ptr::null_mut(), ptr::null_mut()) {
                0 => Ok(()),
                _ => Err(io::Error::last_os_error()),
            },
        );
    }
    let Ok(child) = command.spawn() else {
        return skip("ptrace is not permitted");
    };
    let pid = child.id() as c_int;
    // It stops at its start. Others may end that a test which failed did not wait for.
    while wait().expect("it stops at its start").0 != pid {}
    order(SET_OPTIONS, pid, OPTIONS);
    order(GO_TO_CALL, pid, 0);
    Ok(pid)
}

/// The next of this thread's traced threads that stopped or ended, and how; none where there is none left.
fn wait() -> Option<(c_int, c_int)> {
    let mut status = 0;
    // SAFETY: there is room for the status.
    let who = unsafe { waitpid(-1, &mut status, OWN) };
    (who > 0).then_some((who, status))
}

/// The signal of a stop; none where it ended.
fn stopped(status: c_int) -> Option<c_int> {
    (status & 0xff == 0x7f).then_some(status >> 8 & 0xff)
}

fn order(request: i64, pid: c_int, data: usize) {
    // SAFETY: these requests take numbers; one to a thread that is gone does nothing.
    unsafe { ptrace(request, pid, ptr::null_mut(), data as *mut c_void) };
}
