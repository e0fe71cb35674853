//! Request 1 at the edges of its rules: half accesses and multiple transfers.

mod common;

use common::{accepts, answer, in_no_class, refused_at, refuses, LAYOUT};
use second::make::*;
use second::Layout;
use second::Why::{Condition, Unlisted};

const START: u32 = 131_072;
const HALF: u32 = 1;
const SIGNED_BYTE: u32 = 2;
const SIGNED_HALF: u32 = 3;

const PUSH: u32 = P | W;
const POP: u32 = U | W | L;

/// The mask of r0 that guards a word with condition 14.
fn guarded(word: u32) -> [u32; 2] {
    [mask(ALWAYS, 0, 0x103), word]
}

#[test]
fn half_classes() {
    for kind in [HALF, SIGNED_BYTE, SIGNED_HALF] {
        for letters in [0, U, P, P | U, P | W, P | U | W] {
            let half = |letters, rt| half_access(14, letters, kind, 0, rt, 0xFF);
            accepts(&guarded(half(letters | I | L, 1)), &[0, 1, 0, 0]);
            in_no_class(&guarded(half(letters | L, 1)), Unlisted, START + 4); // by register
            match kind {
                HALF => accepts(&guarded(half(letters | I, 1)), &[0, 1, 0, 0]),
                _ => in_no_class(&guarded(half(letters | I, 1)), Unlisted, START + 4),
            }
            let own_base = guarded(half(letters | I | L, 0));
            match letters & (P | W) {
                P => accepts(&own_base, &[0, 1, 0, 0]),
                _ => in_no_class(&own_base, Unlisted, START + 4),
            }
        }
        for letters in [I | W, I | W | L, I | W | U | L] {
            in_no_class(&[half_access(14, letters, kind, SP, 1, 0)], Unlisted, START);
        }
    }
    // Bits 6..5 of 0 are the multiplies', which have no bit 22.
    in_no_class(&[half_access(14, P | U | I | L, 0, SP, 1, 0)], Unlisted, START);
    in_no_class(&[half_access(15, P | U | I | L, HALF, SP, 1, 0)], Condition, START);
}

#[test]
fn multiple_classes() {
    for letters in 0..32 {
        let transfer = |rn, list| multiple(14, letters, rn, list);
        in_no_class(&guarded(transfer(0, 0)), Unlisted, START + 4);
        if letters & B != 0 {
            in_no_class(&guarded(transfer(0, 2)), Unlisted, START + 4);
            continue;
        }
        accepts(&guarded(transfer(0, 0x5DFE)), &[0, 1, 0, 0]);
        accepts(&[transfer(SP, 0x5DFF)], &[0; 4]);
        // The base in the list: W alone makes write-back.
        match letters & W {
            0 => accepts(&guarded(transfer(0, 3)), &[0, 1, 0, 0]),
            _ => in_no_class(&guarded(transfer(0, 3)), Unlisted, START + 4),
        }
    }
    in_no_class(&[multiple(15, PUSH, SP, 1)], Condition, START);
}

#[test]
fn register_fields() {
    for word in [
        half_access(14, P | I, HALF, 9, 1, 0),
        half_access(14, P | I, HALF, 15, 1, 0),
        half_access(14, P | I | L | W, SIGNED_HALF, 15, 1, 0),
        half_access(14, P | I | L, SIGNED_BYTE, SP, 9, 0),
        half_access(14, P | I | L, HALF, SP, 15, 0),
        half_access(14, P | I, HALF, SP, 15, 0),
        multiple(14, L, 9, 1),
        multiple(14, P | U | L, 15, 1),
        multiple(14, U | L, 15, 1 << 15),
        multiple(14, PUSH, SP, 1 << 9 | 1),
        multiple(14, PUSH, SP, 1 << 15 | 1),
        multiple(14, POP, SP, 1 << 15),
        multiple(14, L, 0, 0xFFFF), // r13 as well, and no guard
    ] {
        refuses(&[word], 5, START);
    }
    // A distance holds no register, and a list no fields.
    accepts(&[half_access(14, P | U | I | L, HALF, SP, 1, 0x9F)], &[0; 4]);
    accepts(&[half_access(14, P | U | I | L, HALF, SP, 1, 0xF9)], &[0; 4]);
    accepts(&[multiple(14, PUSH, SP, 0x90D), multiple(14, POP, SP, 0x90F)], &[0; 4]);
}

#[test]
fn r13_moved() {
    for kind in [HALF, SIGNED_BYTE, SIGNED_HALF] {
        let load = |rn| half_access(14, P | U | I | L, kind, rn, SP, 0);
        refuses(&guarded(load(0)), 6, START + 4);
        refuses(&[load(0)], 6, START); // no guard either
        refuses(&[load(SP)], 6, START);
    }
    accepts(&guarded(half_access(14, P | U | I, HALF, 0, SP, 0)), &[0, 1, 0, 0]);
    accepts(&[half_access(14, P | U | I, HALF, SP, SP, 0)], &[0; 4]);
    for letters in [0, L, W, W | L] {
        refuses(&guarded(multiple(14, letters, 0, 1 << SP | 2)), 6, START + 4);
    }
    for letters in [0, L] {
        refuses(&[multiple(14, letters, SP, 1 << SP)], 6, START);
        in_no_class(&[multiple(14, letters | W, SP, 1 << SP)], Unlisted, START);
    }
    // Base write-back is no such write.
    accepts(&[half_access(14, I | L, HALF, SP, 1, 8)], &[0; 4]);
    accepts(&[multiple(14, PUSH, SP, 0x5DFF), multiple(14, POP, SP, 0x5DFF)], &[0; 4]);
}

#[test]
fn guards() {
    let half = |condition, rn| half_access(condition, P | U | I | L, SIGNED_BYTE, rn, 1, 0);
    let transfer = |condition, rn| multiple(condition, U | W, rn, 2);
    let store = access(14, P | U, 2, 1, 0);
    for access in [half, transfer] {
        for low in DATA_BITS {
            accepts(&[mask(5, 14, low), access(5, 14)], &[0, 1, 0, 0]);
            accepts(&[test(14, 14, low), access(0, 14)], &[0, 1, 0, 0]);
        }
        for first in [
            mask(14, 3, 0x103), // another register
            mask(14, 1, 0x103), // what moves, not the base
            mask(0, 2, 0x103),  // another condition
            mask(14, 2, 0x102), // bit 31 alone
            test(14, 2, 0x103), // the condition is not 0
            NOP,
        ] {
            refuses(&[first, access(14, 2)], 7, START + 4);
        }
        refuses(&[test(0, 2, 0x103), access(0, 2)], 7, START + 4);
        // One mask, one access, of whatever kind.
        refuses(&[mask(14, 2, 0x103), access(14, 2), store], 7, START + 8);
        refuses(&[mask(14, 2, 0x103), store, access(14, 2)], 7, START + 8);
        // Behind a mask of its base an access on r13 is still plain.
        accepts(&[mask(14, SP, 0x103), access(14, SP)], &[0; 4]);
    }
}

#[test]
fn roles() {
    let off = Layout { test_pairs: false, ..LAYOUT };
    let to = branch(14, false, START, i64::from(START) + 8);
    for access in [half_access(0, P | I, HALF, 2, 1, 0), multiple(0, P, 2, 2)] {
        let tested = [to, test(14, 2, 0x103), access];
        assert_eq!(answer(&LAYOUT, &tested), Err(refused_at(11, START)));
        assert_eq!(answer(&off, &tested), Err(refused_at(11, START)));
        assert_eq!(answer(&off, &tested[1..]), Err(refused_at(7, START + 4)));
    }
    // On r9 they are inner behind a mask, though both words break rule 5.
    refuses(&[to, mask_from(14, 0, 9, 0x103), multiple(14, L, 9, 1)], 11, START);
    // Out of their classes they are plain.
    in_no_class(&[to, mask(14, 2, 0x103), multiple(14, L, 2, 0)], Unlisted, START + 8);
    in_no_class(&[to, mask(14, 2, 0x103), half_access(14, P, HALF, 2, 1, 0)], Unlisted, START + 8);
}
