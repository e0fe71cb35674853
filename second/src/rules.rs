//! Rules 4 to 11 on one word, but for the roles of branch targets in the code.

use crate::bundle::{Word, SLOTS};
use crate::layout::Region;
use crate::outcome::*;
use crate::pair::{needs_guard, needs_mask, Pair};
use crate::word::{Class, Reading, PC, R9, SP};

/// r9 and r15, in the form of `Reading::names`.
const FORBIDDEN: u32 = 1 << R9 | 1 << PC;

/// The lowest number that the word in a slot breaks.
pub fn broken(region: &Region, code: &[Word; SLOTS], slot: usize, address: u32) -> Option<u32> {
    let Word { reading, pair } = &code[slot];
    if reading.names(FORBIDDEN) {
        return Some(REGISTER);
    }
    match reading.class {
        Class::None => Some(CLASS),
        Class::Nop => None,
        Class::Data => {
            let closed = || code.get(slot + 1).is_some_and(|w| w.pair == Some(Pair::MaskedStack));
            (needs_mask(reading) && !closed()).then_some(STACK)
        }
        Class::HalfMove | Class::Multiply => reading.names(1 << SP).then_some(STACK),
        Class::Access(_) => bad_access(region, *pair, reading, address),
        Class::RegisterBranch if reading.rm() == SP => Some(STACK),
        Class::RegisterBranch if pair.is_none() => Some(BRANCH_GUARD),
        Class::RegisterBranch | Class::Branch => bad_jump(region, slot, reading, address),
    }
}

fn bad_access(region: &Region, pair: Option<Pair>, access: &Reading, address: u32) -> Option<u32> {
    let guarded = match pair {
        Some(Pair::TestedAccess) => region.layout.test_pairs,
        Some(_) => true,
        None => !needs_guard(access),
    };
    if access.moves_stack() {
        Some(STACK)
    } else if !guarded {
        Some(ACCESS_GUARD)
    } else {
        // The code starts and ends at multiples of 4, so four bytes from one
        // of its words' addresses on lie in it.
        let reads_code = || region.word_at(access.literal(address)).is_some();
        (access.is_literal_load() && !reads_code()).then_some(LITERAL)
    }
}

fn bad_jump(region: &Region, slot: usize, branch: &Reading, address: u32) -> Option<u32> {
    if branch.is_call() && slot != SLOTS - 1 {
        return Some(CALL_SLOT);
    }
    let target = branch.target(address)?;
    let outside = region.word_at(target).is_none() && !region.is_trampoline(target);
    outside.then_some(TARGET)
}
