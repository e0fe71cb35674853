//! Pairs built right, and then almost right.

use super::{edge_condition, edge_register, layout, nops, set, visit, Case};
use crate::make::*;
use crate::regions::{some_access, some_low, some_mask};
use crate::rng::Rng;

/// Values at and near the masks'.
const LOWS: [u32; 16] = [
    0x103, 0x20C, 0x330, 0x4C0, 0x13F, 0x2FC, 0x102, 0x101, 0x203, 0x10C, 0x1FF, 0x003, 0x0C0,
    0x3F0, 0x107, 0x503,
];

/// Registers that masks have rules of their own for.
const RULED: [u32; 3] = [R9, SP, PC];

/// A chain somewhere in a few bundles, so that it may straddle two, with
/// branches to tell the roles by.
pub fn pairs(rng: &mut Rng) -> Case {
    let mut words = nops(rng, 3);
    let chain = chain(rng);
    let first = if rng.once_in(2) {
        4 * rng.below(words.len() / 4) + 4 - chain.len().min(4)
    } else {
        rng.below(words.len())
    };
    let past = words.len().min(first + chain.len());
    words[first..past].copy_from_slice(&chain[..past - first]);
    let layout = layout(rng, &words);
    for _ in 0..rng.below(4) {
        let target = first + rng.below(past - first);
        visit(rng, &layout, &mut words, target);
    }
    Case::new(layout, &words)
}

/// A pair with at most one thing wrong, and what may ride on it.
fn chain(rng: &mut Rng) -> Vec<u32> {
    let [mut first, mut second] = right_pair(rng);
    match rng.below(24) {
        0..=7 => bend(rng, &mut first),
        8..=12 => bend(rng, &mut second),
        13 => return vec![second, first],
        14 => return vec![first, NOP, second],
        15 => return vec![first, second, second],
        16 => return vec![first, first, second],
        17 => return [[first, second], right_pair(rng)].concat(),
        18 | 19 => return two_masks(rng),
        20 | 21 => return two_pairs(rng),
        _ => {}
    }
    vec![first, second]
}

/// Changes one thing about a word of a pair, mostly one that a mask goes by.
fn bend(rng: &mut Rng, word: &mut u32) {
    match rng.below(15) {
        0 => set(word, 28, edge_condition(rng)),
        1 => set(word, 16, edge_register(rng)),
        2..=4 => set(word, 16, rng.pick(&RULED)),
        5 | 6 => set(word, 12, edge_register(rng)),
        7 => set(word, 0, edge_register(rng)),
        8 => *word = *word & !0xFFF | rng.pick(&LOWS),
        9..=11 => *word ^= 1 << rng.field(8),
        12 => set(word, 21, rng.field(16)),
        13 => *word ^= 1 << rng.pick(&[20, 25]),
        _ => *word ^= 1 << rng.field(32),
    }
}

fn right_pair(rng: &mut Rng) -> [u32; 2] {
    let (condition, rt) = (edge_condition(rng), edge_register(rng));
    let register = if rng.once_in(5) { rng.pick(&RULED) } else { edge_register(rng) };
    let access = some_access(rng, condition, register, rt);
    match rng.below(5) {
        0 => [test(ALWAYS, register, some_low(rng, &DATA_BITS)), access & 0x0FFF_FFFF],
        1 => {
            let mask = some_mask(rng, condition, register, &BRANCH_BITS);
            [mask, register_branch(condition, rng.once_in(2), register)]
        }
        2 => [stack_write(rng, condition), some_mask(rng, condition, SP, &DATA_BITS)],
        _ => [some_mask(rng, condition, register, &DATA_BITS), access],
    }
}

/// Two masks of r13, or almost; the second is exact.
pub fn two_masks(rng: &mut Rng) -> Vec<u32> {
    let condition = edge_condition(rng);
    let mut first = some_mask(rng, condition, SP, &DATA_BITS);
    if rng.once_in(3) {
        bend(rng, &mut first);
    }
    vec![first, mask(condition, SP, rng.pick(&DATA_BITS))]
}

/// A write of r13, its closing mask, which is a branch mask too or almost, and a
/// register branch on r13.
pub fn two_pairs(rng: &mut Rng) -> Vec<u32> {
    let condition = edge_condition(rng);
    let mut closing = some_mask(rng, condition, SP, &BRANCH_BITS);
    if rng.once_in(3) {
        bend(rng, &mut closing);
    }
    vec![stack_write(rng, condition), closing, register_branch(condition, rng.once_in(4), SP)]
}

/// A data word that writes r13, now and then a mask of it or almost.
fn stack_write(rng: &mut Rng, condition: u32) -> u32 {
    let low = rng.word() & 0xFE0 | edge_register(rng);
    match rng.below(5) {
        0 => some_mask(rng, condition, SP, &DATA_BITS),
        1 => mask_from(condition, edge_register(rng), SP, rng.pick(&LOWS)),
        2 => data(condition, MOV, 0, 0, SP, low),
        _ => data(condition, rng.pick(&[0, 1, 2, 4, 12]), 0, edge_register(rng), SP, low),
    }
}
