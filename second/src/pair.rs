//! The pairs: two readings in adjacent slots of one bundle.

use crate::word::{Class, Reading, PC, R9, SP};

/// What a data mask clears and a test guard tests, at least.
const DATA_BITS: u32 = 0xC000_0000;
/// What a branch mask clears, at least.
const BRANCH_BITS: u32 = 0xC000_000F;
const EQUAL: u32 = 0;
const ALWAYS: u32 = 14;

#[derive(Clone, Copy, Debug, PartialEq, Eq)]
pub enum Pair {
    MaskedAccess,
    TestedAccess,
    MaskedBranch,
    MaskedStack,
}

/// The pair two neighbours make, if any.
pub fn pair(first: &Reading, second: &Reading) -> Option<Pair> {
    match second.class {
        Class::Access(_) if needs_guard(second) => guard(first, second),
        Class::RegisterBranch => {
            let masks = is_mask(first, second.rm(), BRANCH_BITS);
            (masks && same_condition(first, second)).then_some(Pair::MaskedBranch)
        }
        Class::Data if is_data_mask(second, SP) => {
            let opens = needs_mask(first) && !first.sets_flags();
            (opens && same_condition(first, second)).then_some(Pair::MaskedStack)
        }
        _ => None,
    }
}

fn guard(first: &Reading, access: &Reading) -> Option<Pair> {
    if is_data_mask(first, access.rn()) && same_condition(first, access) {
        Some(Pair::MaskedAccess)
    } else if is_test(first, access.rn()) && access.condition() == EQUAL {
        Some(Pair::TestedAccess)
    } else {
        None
    }
}

fn same_condition(first: &Reading, second: &Reading) -> bool {
    first.condition() == second.condition()
}

/// An access on r13 or r15 is in no pair: the paper calls it plain even behind
/// a mask of its base. One on r9 can be, though rule 5 refuses it.
pub fn needs_guard(access: &Reading) -> bool {
    !matches!(access.rn(), SP | PC)
}

/// A data word that writes r13 and is no data mask of r13 itself; so of two
/// data masks the second stays plain.
pub fn needs_mask(reading: &Reading) -> bool {
    reading.writes_stack() && !is_data_mask(reading, SP)
}

fn is_data_mask(reading: &Reading, register: u32) -> bool {
    is_mask(reading, register, DATA_BITS)
}

/// A bic into the register. What reads r9 or r15 is no mask, not even of r9 or
/// r15 itself.
fn is_mask(reading: &Reading, register: u32, bits: u32) -> bool {
    let may_read = !matches!(reading.rn(), R9 | PC);
    may_read && reading.rd() == register && holds(reading.cleared(), bits)
}

fn is_test(reading: &Reading, register: u32) -> bool {
    let tests = reading.rn() == register && holds(reading.tested(), DATA_BITS);
    tests && reading.condition() == ALWAYS
}

/// Whether all these bits are in a value, if there is one: the value counts,
/// not how it is rotated.
fn holds(value: Option<u32>, bits: u32) -> bool {
    value.is_some_and(|value| value & bits == bits)
}
