//! Request 3 at the edges of its rules: masks and tests of more bits or fewer,
//! and masks from other registers.

mod common;

use common::{accepts, answer, refused_at, refuses, roles, LAYOUT};
use second::make::*;
use second::Layout;

const START: u32 = 131_072;
const TOP: u32 = 0xC000_0000;
const TOP_AND_LOW: u32 = 0xC000_000F;
/// A write of r13 that is no mask.
const WRITE: u32 = 0xE1A0_D000;

fn store(condition: u32, rn: u32) -> u32 {
    access(condition, P | U, rn, 1, 0)
}

fn bx(condition: u32, rm: u32) -> u32 {
    register_branch(condition, false, rm)
}

/// Whether a mask may read this register.
fn is_source(register: u32) -> bool {
    register != 9 && register != 15
}

/// Whether an access on this register is ever inner.
fn is_guarded(register: u32) -> bool {
    register != 13 && register != 15
}

/// The value of an immediate, rotated one place at a time.
fn value(low: u32) -> u32 {
    (0..2 * (low >> 8)).fold(low & 0xFF, |value, _| value.rotate_right(1))
}

/// Two words are accepted as a pair, or refused at an address.
fn pairs(right: bool, words: [u32; 2], number: u32, address: u32) {
    match right {
        true => accepts(&words, &[0, 1, 0, 0]),
        false => refuses(&words, number, address),
    }
}

/// A word is accepted alone, or refused.
fn stands(right: bool, word: u32, number: u32) {
    match right {
        true => accepts(&[word], &[0; 4]),
        false => refuses(&[word], number, START),
    }
}

#[test]
fn every_immediate() {
    let (mut data_masks, mut branch_masks) = (0, 0);
    for low in 0..0x1000 {
        let [top, both] = [TOP, TOP_AND_LOW].map(|bits| value(low) & bits == bits);
        pairs(top, [mask(14, 2, low), store(14, 2)], 7, START + 4);
        pairs(top, [mask_from(3, 4, 2, low), store(3, 2)], 7, START + 4);
        pairs(top, [test(14, 2, low), store(0, 2)], 7, START + 4);
        pairs(both, [mask(14, 2, low), bx(14, 2)], 8, START + 4);
        pairs(both, [mask_from(3, 4, 2, low), bx(3, 2)], 8, START + 4);
        data_masks += u32::from(top);
        branch_masks += u32::from(both);
    }
    assert_eq!((data_masks, branch_masks), (256, 8));
}

#[test]
fn every_immediate_for_r13() {
    for low in 0..0x1000 {
        let [top, both] = [TOP, TOP_AND_LOW].map(|bits| value(low) & bits == bits);
        for rn in [SP, 4] {
            let mask = mask_from(14, rn, SP, low);
            pairs(top, [WRITE, mask], 6, START);
            // Exempt, it stands alone and opens no pair.
            stands(top, mask, 6);
            accepts(&[mask, 0xE3CD_D103], &[0, u32::from(!top), 0, 0]);
            // It is the first word of the second pair as well.
            let inner = [false, top, both, false].map(u32::from);
            assert_eq!(roles(&[WRITE, mask, bx(14, SP)]), inner);
        }
    }
}

#[test]
fn every_register_of_a_mask() {
    for (rn, rd) in (0..256).map(|both| (both / 16, both % 16)) {
        for base in 0..16 {
            let guards = rd == base && is_source(rn);
            let data = [mask_from(14, rn, rd, 0x103), store(14, base)];
            let branch = [mask_from(14, rn, rd, 0x13F), bx(14, base)];
            assert_eq!(roles(&data)[1] == 1, guards && is_guarded(base), "{data:08X?}");
            assert_eq!(roles(&branch)[1] == 1, guards, "{branch:08X?}");
        }
        let mask = mask_from(14, rn, rd, 0x103);
        assert_eq!(roles(&[WRITE, mask])[1] == 1, rd == SP && is_source(rn));
        assert_eq!(roles(&[mask, 0xE3CD_D103])[1] == 1, rd == SP && !is_source(rn));
    }
}

#[test]
fn every_register_of_a_test() {
    for (rn, base) in (0..256).map(|both| (both / 16, both % 16)) {
        let tested = [test(14, rn, 0x1FF), store(0, base)];
        assert_eq!(roles(&tested)[1] == 1, rn == base && is_guarded(base), "{tested:08X?}");
    }
}

#[test]
fn refusals_by_the_register_read() {
    for rn in 0..16 {
        // A mask names what it reads; one that closes is missed a word earlier.
        pairs(is_source(rn), [mask_from(14, rn, 2, 0x103), store(14, 2)], 5, START);
        pairs(is_source(rn), [mask_from(14, rn, 2, 0x13F), bx(14, 2)], 5, START);
        pairs(is_source(rn), [WRITE, mask_from(14, rn, SP, 0x103)], 6, START);
        stands(is_source(rn), mask_from(14, rn, SP, 0x103), 5);
    }
    // The register read has no guard by this.
    refuses(&[mask_from(14, 3, 2, 0x103), store(14, 3)], 7, START + 4);
    refuses(&[mask_from(14, 3, 2, 0x103), store(14, 2), store(14, 3)], 7, START + 8);
    refuses(&[mask_from(14, 3, 2, 0x13F), bx(14, 3)], 8, START + 4);
    refuses(&[WRITE, mask_from(14, SP, 2, 0x103)], 6, START);
}

#[test]
fn conditions() {
    for (first, second) in (0..225).map(|both| (both / 15, both % 15)) {
        let same = first == second;
        let write = data(first, MOV, 0, 0, SP, 1);
        pairs(same, [mask_from(first, 3, 2, 0x1FF), store(second, 2)], 7, START + 4);
        pairs(same, [mask_from(first, 3, 2, 0x1FF), bx(second, 2)], 8, START + 4);
        pairs(same, [write, mask_from(second, 3, SP, 0x1FF)], 6, START);
        let tests = first == ALWAYS && second == EQUAL;
        pairs(tests, [test(first, 2, 0x1FF), store(second, 2)], 7, START + 4);
    }
}

#[test]
fn operations() {
    for (operation, s) in (0..32).map(|both| (both / 2, both % 2)) {
        let word = |rn, rd| data(14, operation, s, rn, rd, IMMEDIATE | 0x1FF);
        let is_mask = operation == BIC && s == 0;
        let is_test = operation == TST && s == 1;
        assert_eq!(roles(&[word(3, 2), store(14, 2)])[1] == 1, is_mask);
        assert_eq!(roles(&[word(3, 2), bx(14, 2)])[1] == 1, is_mask);
        assert_eq!(roles(&[WRITE, word(3, SP)])[1] == 1, is_mask);
        assert_eq!(roles(&[word(2, 0), store(0, 2)])[1] == 1, is_test);
    }
    // Neither with S nor by a register.
    for bic in [data(14, BIC, 1, 3, SP, IMMEDIATE | 0x1FF), data(14, BIC, 0, 3, SP, 3)] {
        refuses(&[bic], 6, START);
        refuses(&[WRITE, bic], 6, START);
    }
}

#[test]
fn every_kind_of_access() {
    let off = Layout { test_pairs: false, ..LAYOUT };
    for access in [
        store,
        |condition, rn| half_access(condition, P | I | L, 2, rn, 1, 0),
        |condition, rn| multiple(condition, U | W, rn, 2),
    ] {
        accepts(&[mask_from(5, SP, 14, 0x2FF), access(5, 14)], &[0, 1, 0, 0]);
        accepts(&[mask_from(14, 2, SP, 0x2FF), access(14, SP)], &[0; 4]);
        let tested = [test(14, 14, 0x3FF), access(0, 14)];
        accepts(&tested, &[0, 1, 0, 0]);
        assert_eq!(answer(&off, &tested), Err(refused_at(7, START + 4)));
        assert_eq!(roles(&[mask(14, 9, 0x103), access(14, 9)]), [0; 4]);
        assert_eq!(roles(&[mask_from(14, 0, 9, 0x103), access(14, 9)]), [0, 1, 0, 0]);
    }
}

#[test]
fn landings_follow_the_roles() {
    let to = |word: u32| branch(14, false, START, i64::from(START + 4 * word));
    // From r9 no mask: the store is plain, and 5 comes first.
    refuses(&[to(2), mask_from(14, 9, 2, 0x103), store(14, 2)], 5, START + 4);
    refuses(&[to(2), mask_from(14, 3, 2, 0x103), store(14, 2)], 11, START);
    refuses(&[to(2), mask_from(14, 9, SP, 0x103), mask(14, SP, 0x103)], 11, START);
    // The second of two masks of r13 may be landed on.
    accepts(&[to(2), mask_from(14, 3, SP, 0x103), mask(14, SP, 0x103)], &[0, 0, 4, 0]);
    // Behind a closing mask a register branch on r13 may not.
    refuses(&[to(3), WRITE, mask(14, SP, 0x13F), bx(14, SP)], 11, START);
    refuses(&[to(3), WRITE, mask(14, SP, 0x103), bx(14, SP)], 6, START + 12);
}
