//! The layout, the region it places, and the paper's sizes.

use crate::outcome::{Outcome, LAYOUT, LENGTH};
use std::ops::RangeInclusive;

pub const WORD: usize = 4;
pub const BUNDLE: usize = 16;
/// Where trampolines may begin and end.
pub const TRAMPOLINES: RangeInclusive<u32> = 65_536..=131_072;
/// The first address above the sandbox.
pub const SANDBOX_END: u64 = 1 << 30;
/// The longest code, in bytes.
pub const CODE_LIMIT: usize = 65_536;

#[derive(Clone, Copy, Debug, PartialEq, Eq)]
pub struct Layout {
    pub code_start: u32,
    pub trampoline_first: u32,
    pub trampoline_end: u32,
    pub test_pairs: bool,
}

impl Layout {
    /// Rule 1's demands, for a code length of any size.
    fn holds(&self, code_len: usize) -> bool {
        let bounds = [self.trampoline_first, self.trampoline_end, self.code_start];
        bounds.iter().all(|bound| bound.is_multiple_of(BUNDLE as u32))
            && *TRAMPOLINES.start() <= self.trampoline_first
            && self.trampoline_first <= self.trampoline_end
            && self.trampoline_end <= *TRAMPOLINES.end()
            && *TRAMPOLINES.end() <= self.code_start
            && u128::from(self.code_start) + code_len as u128 <= u128::from(SANDBOX_END)
    }
}

/// A place for code that has passed rules 1 and 2.
pub struct Region<'a> {
    pub layout: &'a Layout,
    code_len: usize,
}

impl<'a> Region<'a> {
    pub fn new(layout: &'a Layout, code_len: usize) -> Result<Self, Outcome> {
        if !layout.holds(code_len) {
            return Err(Outcome::refused(LAYOUT));
        }
        if !(BUNDLE..=CODE_LIMIT).contains(&code_len) || !code_len.is_multiple_of(BUNDLE) {
            return Err(Outcome::refused(LENGTH));
        }
        Ok(Region { layout, code_len })
    }

    /// The address of a word of the region.
    pub fn address(&self, word: usize) -> u32 {
        self.layout.code_start + (WORD * word) as u32
    }

    /// The word of the region that starts at an address.
    pub fn word_at(&self, address: i64) -> Option<usize> {
        let offset = usize::try_from(address - i64::from(self.layout.code_start)).ok()?;
        (offset < self.code_len && offset.is_multiple_of(WORD)).then_some(offset / WORD)
    }

    /// Whether a branch to this address leaves by a trampoline.
    pub fn is_trampoline(&self, address: i64) -> bool {
        let trampolines =
            i64::from(self.layout.trampoline_first)..i64::from(self.layout.trampoline_end);
        trampolines.contains(&address) && address % BUNDLE as i64 == 0
    }
}
