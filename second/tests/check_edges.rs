//! The check at the edges of its rules.

mod common;

use common::{accepts, answer, in_no_class, refused, refused_at, refuses, LAYOUT, STALE};
use second::make::*;
use second::{check, Layout, Outcome, Why};

const N: u32 = NOP;
const START: u32 = 131_072;

/// The answer for code of nops under a layout.
fn under(layout: Layout, code_len: usize, entries: usize) -> Outcome {
    let nops: Vec<u8> = N.to_le_bytes().into_iter().cycle().take(code_len).collect();
    check(&layout, &nops, &mut vec![STALE; entries])
}

#[test]
fn layouts_and_lengths_in_order() {
    let top = 1 << 30;
    let at = |code_start| Layout { code_start, ..LAYOUT };
    assert_eq!(under(at(top - 16), 16, 4), Outcome::Accepted);
    assert_eq!(under(at(top - 16), 32, 0), refused(1));
    // Rule 1 takes the length as given, however wrong it is.
    assert_eq!(under(at(top), 0, 0), refused(2));
    assert_eq!(under(at(top - 16), 15, 0), refused(2));
    assert_eq!(under(at(top - 16), 17, 0), refused(1));
    assert_eq!(under(at(u32::MAX - 15), 16, 4), refused(1));
    assert_eq!(under(at(START + 8), 16, 4), refused(1));
    assert_eq!(under(at(START - 16), 16, 4), refused(1));
    assert_eq!(under(LAYOUT, 65_552, 0), refused(2));
    assert_eq!(under(LAYOUT, 20, 0), refused(2));
    assert_eq!(under(LAYOUT, 16, 5), refused(3));
    assert_eq!(under(LAYOUT, 32, 7), refused(3));
}

#[test]
fn trampolines_in_a_layout() {
    let between =
        |trampoline_first, trampoline_end| Layout { trampoline_first, trampoline_end, ..LAYOUT };
    for (first, end) in [(65_536, 65_536), (131_072, 131_072), (65_552, 131_056)] {
        assert_eq!(under(between(first, end), 16, 4), Outcome::Accepted);
    }
    for (first, end) in [(65_520, 131_072), (65_540, 131_072), (65_552, 65_536), (65_536, 131_088)]
    {
        assert_eq!(under(between(first, end), 16, 4), refused(1));
    }
}

#[test]
fn refusals_by_address_then_number() {
    refuses(&[N, branch(ALWAYS, false, 0, 4000), 0xF000_0000], 11, START + 4);
    // A call out of place and astray: 9 before 11.
    refuses(&[branch(ALWAYS, true, START, 0)], 9, START);
    // The branch's fault comes first although the other word's role makes it.
    let inner = [mask_from(14, 0, 9, 0x103), 0xE589_1000];
    refuses(&[branch(ALWAYS, false, START, 131_080), inner[0], inner[1]], 11, START);
}

#[test]
fn classes() {
    for word in [0xF3C0_0103, HEAD ^ 1 << 28] {
        in_no_class(&[word], Why::Condition, START);
    }
    for word in [
        0xE300_9000 | 2 << 20,              // bits 27..20 = 0x32, no nop
        0x0320_F000,                        // a nop but for its condition
        data(14, 8, 0, 1, 0, 2),            // tst without S
        data(14, 10, 1, 1, 1, 2),           // cmp with Rd
        data(14, MOV, 0, 1, 2, 3),          // mov with Rn
        data(14, 15, 0, 1, 2, IMMEDIATE),   // mvn with Rn
        multiply(14, 0, 1, 2, 3) | 1 << 12, // multiply with bits 15..12
        0xE000_00B0,                        // a halfword access by register
        0xE040_0090,                        // bits 27..21 = 2
        access(14, W | U, 13, 1, 0),        // P = 0 with W = 1
        access(14, U, 13, 13, 0),           // write-back into Rt
        access(14, P | W, 15, 15, 0),
        register_branch(14, false, 0) ^ 1 << 8,
        HEAD ^ 1 << 29,
    ] {
        in_no_class(&[word], Why::Unlisted, START);
    }
}

#[test]
fn register_fields() {
    for word in [
        data(14, 4, 0, 9, 1, 2),
        data(14, 4, 0, 1, 15, 2),
        data(14, 4, 0, 1, 2, 9),
        data(14, 4, 0, 1, 2, 9 << 8 | 0x10),
        half_move(14, true, 9, 0),
        multiply(14, 0, 9, 1, 2),
        multiply(14, 0, 1, 15, 2),
        multiply(14, 0, 1, 2, 9),
        multiply_add(14, 1, 15, 2, 3),
        access(14, P | U, 13, 9, 0),
        access(14, P | U | L, 13, 15, 0),
        access(14, P | U, 15, 0, 4),         // a store on r15
        access(14, P | U | B | L, 15, 0, 4), // a byte load on r15
        access(14, P | U | L | W, 15, 0, 4),
        access(14, U | L, 15, 0, 4),
        access(14, P | U | L, 15, 15, 4), // a literal load of r15
        register_branch(14, false, 15),
    ] {
        refuses(&[word], 5, START);
    }
    // No registers: a rotation, a shift's amount, a half move's number.
    accepts(&[data(14, 4, 0, 1, 2, IMMEDIATE | 0x9FF)], &[0; 4]);
    accepts(&[data(14, 4, 0, 1, 2, 0xF80 | 3)], &[0; 4]);
    accepts(&[half_move(14, false, 2, 0x9F9F)], &[0; 4]);
}

#[test]
fn writes_of_r13() {
    let closing = mask(14, SP, 0x330);
    for word in [
        access(14, P | U | L, SP, SP, 0),
        access(14, P | U | L, 15, SP, 4),
        half_move(14, false, SP, 0),
        multiply(14, 0, SP, 1, 2),
        multiply(14, 0, 1, SP, 2),
        multiply_add(14, 1, SP, 2, 3),
        multiply_add(14, 1, 2, 3, SP),
        register_branch(14, false, SP),
        data(14, MOV, 0, 0, SP, 1),        // nothing next
        data(14, 4, 1, SP, SP, IMMEDIATE), // sets flags
        mask(14, SP, 0x102),               // bit 31 alone
        data(14, BIC, 1, SP, SP, IMMEDIATE | 0x103),
    ] {
        refuses(&[word], 6, START);
    }
    // Closed by a data mask with the same condition, in the same bundle.
    accepts(&[data(3, 4, 0, 1, SP, 2), mask(3, SP, 0x4C0)], &[0, 1, 0, 0]);
    accepts(&[mask(14, SP, 0x102), closing], &[0, 1, 0, 0]);
    refuses(&[data(3, 4, 0, 1, SP, 2), closing], 6, START);
    refuses(&[N, N, N, data(14, MOV, 0, 0, SP, 1), closing], 6, START + 12);
    // A data mask of r13 stands alone, and of two the second is plain.
    accepts(&[closing, closing, N, closing], &[0; 4]);
    // Stores of r13 and base write-back are no such writes.
    accepts(&[access(14, P | U, SP, SP, 0)], &[0; 4]);
    accepts(&[access(14, L, SP, 1, 8), access(14, P | W, SP, 1, 8)], &[0; 4]);
}

#[test]
fn a_chain_on_r13() {
    let load = access(14, P | U | L, SP, 1, 0);
    let chain = [data(14, MOV, 0, 0, SP, 1), mask(14, SP, 0x103), load, load];
    accepts(&chain, &[0, 1, 0, 0]);
    // Behind a mask or a test of its base an access on r13 is still plain.
    accepts(&[mask(14, SP, 0x103), load], &[0; 4]);
    accepts(&[test(14, SP, 0x103), load & 0x0FFF_FFFF], &[0; 4]);
}

#[test]
fn guards_of_an_access() {
    let store = |condition, rn| access(condition, P | U, rn, 1, 0);
    for low in DATA_BITS {
        accepts(&[mask(5, 14, low), store(5, 14)], &[0, 1, 0, 0]);
        accepts(&[test(14, 14, low), store(0, 14)], &[0, 1, 0, 0]);
    }
    accepts(&[mask(0, 2, 0x103), store(0, 2)], &[0, 1, 0, 0]);
    for first in [
        mask(14, 3, 0x103),                        // another register
        mask(0, 2, 0x103),                         // another condition
        mask(14, 2, 0x102),                        // bit 31 alone
        data(14, BIC, 1, 2, 2, IMMEDIATE | 0x103), // S
        mask_from(14, 2, 3, 0x103),                // from r2 into another
        data(14, BIC, 0, 2, 2, 3),                 // no immediate
        test(14, 2, 0x103),                        // the condition is not 0
        N,
    ] {
        refuses(&[first, store(14, 2)], 7, START + 4);
    }
    refuses(&[test(14, 2, 0x102), store(0, 2)], 7, START + 4);
    // One mask, one access; and the mask comes first.
    refuses(&[mask(14, 2, 0x103), store(14, 2), store(14, 2)], 7, START + 8);
    refuses(&[store(14, 2), mask(14, 2, 0x103)], 7, START);
    refuses(&[mask(14, 2, 0x103), N, store(14, 2)], 7, START + 8);
}

#[test]
fn guards_of_a_register_branch() {
    for low in BRANCH_BITS {
        accepts(&[mask(1, 3, low), register_branch(1, false, 3)], &[0, 1, 0, 0]);
    }
    for first in [mask(14, 3, 0x103), mask(14, 4, 0x13F), mask(1, 3, 0x13F), test(14, 3, 0x13F)] {
        refuses(&[first, register_branch(14, false, 3)], 8, START + 4);
    }
    let call = register_branch(14, true, 3);
    accepts(&[N, N, mask(14, 3, 0x13F), call], &[0, 0, 0, 1]);
    refuses(&[N, mask(14, 3, 0x13F), call], 9, START + 8);
    refuses(&[N, N, call], 8, START + 8);
}

#[test]
fn roles_do_not_heed_the_switch_or_other_faults() {
    let off = Layout { test_pairs: false, ..LAYOUT };
    let to = |word: u32| branch(14, false, START, i64::from(START + 4 * word));
    let tested = [to(2), test(14, 2, 0x103), access(0, P, 2, 1, 0)];
    assert_eq!(answer(&off, &tested), Err(refused_at(11, START)));
    // An access on r9 behind its mask is inner, though both break rule 5.
    refuses(&[to(2), mask_from(14, 0, 9, 0x103), access(14, P, 9, 1, 0)], 11, START);
    refuses(&[to(1), mask_from(14, 0, 9, 0x103), access(14, P, 9, 1, 0)], 5, START + 4);
    // A register branch on r13 or r15 behind its mask is inner too.
    refuses(&[to(2), mask(14, SP, 0x13F), register_branch(14, false, SP)], 11, START);
    refuses(&[to(2), mask_from(14, 0, 15, 0x13F), register_branch(14, false, 15)], 11, START);
    // Accesses on r13 and r15 are plain.
    refuses(&[to(2), mask_from(14, 0, 15, 0x103), access(14, P, 15, 1, 0)], 5, START + 4);
    // With S the two make no pair, so the mask is plain and 6 comes second.
    refuses(&[to(2), data(14, MOV, 1, 0, SP, 1), mask(14, SP, 0x103)], 6, START + 4);
    // A word in no class is plain.
    in_no_class(&[to(1), 0xFFFF_FFFF], Why::Condition, START + 4);
}

#[test]
fn heads_and_data() {
    let to = |own: u32, word: u32| branch(14, false, START + 4 * own, i64::from(START + 4 * word));
    // Data that reads as a branch or as a head lands nowhere and breaks nothing.
    accepts(&[HEAD, to(1, 4), HEAD, to(3, 90), N], &[3, 2, 2, 2, 0, 0, 0, 0]);
    accepts(&[HEAD, 0, 0, 0, to(4, 0), to(5, 5)], &[7, 2, 2, 2, 0, 4, 0, 0]);
    for data in 1..4 {
        refuses(&[HEAD, 0, 0, 0, to(4, data)], 11, START + 16);
    }
}

#[test]
fn direct_branches() {
    let target = |target: i64| [branch(14, false, START, target)];
    for trampoline in [65_536, 65_552, 131_056] {
        accepts(&target(trampoline), &[0; 4]);
    }
    for astray in [65_532, 65_540, 65_520, START as i64 - 4, START as i64 + 16, 0, -4, -4096] {
        refuses(&target(astray), 11, START);
    }
    accepts(&target(i64::from(START) + 12), &[0, 0, 0, 4]);
    let none = Layout { trampoline_first: 65_536, trampoline_end: 65_536, ..LAYOUT };
    assert_eq!(answer(&none, &target(65_536)), Err(refused_at(11, START)));
    let part = Layout { trampoline_first: 65_552, trampoline_end: 65_568, ..LAYOUT };
    assert_eq!(answer(&part, &target(65_552)), Ok(vec![0; 4]));
    assert_eq!(answer(&part, &target(65_536)), Err(refused_at(11, START)));
    assert_eq!(answer(&part, &target(65_568)), Err(refused_at(11, START)));
}

#[test]
fn a_branch_does_not_wrap() {
    // 131,072 + 8 - 33,554,432: as 32 bits it would be a high address.
    refuses(&[0xEA80_0000], 11, START);
    let top = Layout { code_start: (1 << 30) - 16, ..LAYOUT };
    assert_eq!(answer(&top, &[0xEA7F_FFFF]), Err(refused_at(11, (1 << 30) - 16)));
}

#[test]
fn landings_add_up() {
    let to = |own: u32| branch(own % 15, false, START + 4 * own, i64::from(START) + 8);
    let words: Vec<u32> = (0..16_384).map(to).collect();
    let mut ledger = vec![0; 16_384];
    ledger[2] = 4 * 16_384;
    accepts(&words, &ledger);
}

#[test]
fn literal_loads() {
    let load = |slot: u32, from: i64| {
        let mut words = [N; 8];
        words[slot as usize] = literal(14, 1, START + 4 * slot, i64::from(START) + from);
        words
    };
    for slot in 0..8 {
        for from in [0, 4, 24, 28] {
            accepts(&load(slot, from), &[0; 8]);
        }
        for from in [-4, -1, 1, 2, 3, 26, 29, 30, 32, 36] {
            refuses(&load(slot, from), 10, START + 4 * slot);
        }
    }
    // A distance of 0 downwards is the same place as upwards.
    accepts(&[access(14, P | L, 15, 1, 0)], &[0; 4]);
}
