//! Half accesses and multiple transfers, at and just outside their classes.

use super::{edge_condition, edge_register, placed, set, Case};
use crate::regions::{some_half, some_multiple};
use crate::rng::Rng;

/// Bits that a half access's class goes by: its kind, L, W, I and P.
const HALF_BITS: [u32; 6] = [5, 6, 20, 21, 22, 24];

pub fn transfers(rng: &mut Rng) -> Case {
    let word = word(rng);
    placed(rng, word)
}

/// One of either, with registers at their edges and at most one other thing
/// wrong.
pub fn word(rng: &mut Rng) -> u32 {
    let (condition, rn, rt) = (edge_condition(rng), edge_register(rng), edge_register(rng));
    let is_half = rng.once_in(2);
    let make = if is_half { some_half } else { some_multiple };
    let mut word = make(rng, condition, rn, rt);
    match (is_half, rng.below(4)) {
        (_, 0) => {}
        (true, 1) => set(&mut word, 12, rng.pick(&[13, rn])),
        (true, _) => word ^= 1 << rng.pick(&HALF_BITS),
        (false, 1) => word &= !0xFFFF,
        (false, 2) => word ^= 1 << rng.pick(&[21, 22]),
        (false, _) => word ^= 1 << rng.pick(&[9, 13, 15, rn]),
    }
    word
}
