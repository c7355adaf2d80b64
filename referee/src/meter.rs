//! The meter of steps, and the room that unfinished values share.

use crate::refusal::{Outcome, Refusal};

/// Steps charged so far and the most that may be.
#[derive(Debug)]
pub struct Meter {
    used: u32,
    most: u32,
}

impl Meter {
    pub fn new(most: u32) -> Meter {
        Meter { used: 0, most }
    }

    pub fn used(&self) -> u32 {
        self.used
    }

    /// "18: a step due with none left; it is not counted".
    pub fn charge(&mut self) -> Outcome<()> {
        if self.used >= self.most {
            return Err(Refusal::Steps);
        }
        self.used += 1;
        Ok(())
    }
}

/// Reading 28: what waits in expressions, calls and scans lies in one room.
#[derive(Debug, Default)]
pub struct Waiting {
    bytes: usize,
}

impl Waiting {
    pub const MOST: usize = 65_536;

    /// A value of `bytes` bytes is put if all together are at most the room.
    pub fn put(&mut self, bytes: usize) -> Outcome<()> {
        if bytes > Waiting::MOST.saturating_sub(self.bytes) {
            return Err(Refusal::Length);
        }
        self.bytes += bytes;
        Ok(())
    }

    /// A value leaves the room.
    pub fn take(&mut self, bytes: usize) {
        self.bytes = self.bytes.saturating_sub(bytes);
    }
}
