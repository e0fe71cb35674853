//! The foreign side: the proved library behind safe calls.

use crate::{Layout, Outcome};

/// The switch for test pairs as the header declares it.
type Switch = bool;

mod foreign {
    use super::Switch;

    extern "C" {
        pub fn awl_check(
            code_start: u32,
            trampoline_first: u32,
            trampoline_end: u32,
            test_pairs: Switch,
            code: *const u8,
            code_len: u64,
            ledger: *mut u32,
            ledger_len: u64,
        ) -> u64;

        #[cfg(feature = "patch")]
        pub fn awl_patch(
            code_start: u32,
            trampoline_first: u32,
            trampoline_end: u32,
            test_pairs: Switch,
            ledger: *mut u32,
            ledger_len: u64,
            offset: u64,
            old_bundles: *mut u8,
            old_len: u64,
            new_bundles: *const u8,
            new_len: u64,
        ) -> u64;
    }
}

/// The library's check. The code is lent for writing so that a comparison may
/// catch the library at it.
pub fn check(layout: &Layout, code: &mut [u8], ledger: &mut [u32]) -> Outcome {
    // SAFETY: each pointer and length describe a slice lent for the call.
    let answer = unsafe {
        foreign::awl_check(
            layout.code_start,
            layout.trampoline_first,
            layout.trampoline_end,
            layout.test_pairs as Switch,
            code.as_mut_ptr(),
            code.len() as u64,
            ledger.as_mut_ptr(),
            ledger.len() as u64,
        )
    };
    Outcome::of(answer)
}

/// The library's patch; the new bundles are lent for writing as the code above.
#[cfg(feature = "patch")]
pub fn patch(
    layout: &Layout,
    ledger: &mut [u32],
    offset: usize,
    old: &mut [u8],
    new: &mut [u8],
) -> Outcome {
    // SAFETY: as above, and the three slices are apart.
    let answer = unsafe {
        foreign::awl_patch(
            layout.code_start,
            layout.trampoline_first,
            layout.trampoline_end,
            layout.test_pairs as Switch,
            ledger.as_mut_ptr(),
            ledger.len() as u64,
            offset as u64,
            old.as_mut_ptr(),
            old.len() as u64,
            new.as_mut_ptr(),
            new.len() as u64,
        )
    };
    Outcome::of(answer)
}
