//! The proved functions, linked from the static library of crate `export`. Nothing else decides a verdict.

use crate::outcome::NotRun;
use crate::texts::{Texts, BATCH, RUN};

#[path = "../../crates/export/teaselshears.rs"]
mod teaselshears;

/// More stack than the functions use, whatever limit the program was started with.
pub const STACK: usize = 4 << 20;

/// More bytes than are ever printed.
const ROOM: usize = 1 << 20;

pub const VERSION: &str = env!("CARGO_PKG_VERSION");
/// The sum over the sources and proofs of the library and all below it, and the kit that proved them.
pub const LIBRARY: &str = env!("LIBRARY_SUM");
pub const KIT: &str = env!("LIBRARY_KIT");

/// The functions with a buffer for what they print, which is used again from call to call.
pub struct Proved {
    out: Vec<u8>,
}

impl Proved {
    pub fn new() -> Proved {
        Proved { out: vec![0; ROOM] }
    }

    /// What the program `audit` prints of a batch.
    pub fn audit(&mut self, texts: &Texts) -> Result<&[u8], NotRun> {
        let [programs, trace, report] = BATCH.map(|text| texts.bytes(text));
        let written = teaselshears::audit_text(programs, trace, report, &mut self.out);
        self.front(written)
    }

    /// What the program `record` prints of a schedule.
    pub fn record(&mut self, texts: &Texts) -> Result<&[u8], NotRun> {
        let [programs, schedule] = RUN.map(|text| texts.bytes(text));
        let written = teaselshears::record_text(programs, schedule, &mut self.out);
        self.front(written)
    }

    /// The bytes that were written; none is said of a buffer that was too short.
    fn front(&self, written: usize) -> Result<&[u8], NotRun> {
        match self.out.get(..written) {
            Some(front) if written > 0 => Ok(front),
            _ => Err(NotRun::new("the library's answer did not fit its buffer")),
        }
    }
}
