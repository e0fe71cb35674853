//! Families where the place decides: targets, literals, layouts and lengths.

use super::{edge_condition, edge_register, layout, nops, visit, web, Case};
use crate::make::*;
use crate::regions::{self, address, region, spoil};
use crate::rng::Rng;
use crate::{Layout, CODE_LIMIT, SANDBOX_END};

/// Dense branches, mostly sound, some aimed anywhere or calling out of slot.
pub fn branches(rng: &mut Rng) -> Case {
    let bundles = 1 + rng.below(8);
    let layout = regions::layout(rng, 16 * bundles);
    let mut words = web(rng, &layout, bundles);
    for _ in 0..rng.below(3) {
        let place = rng.below(words.len());
        let own = address(&layout, place) as u32;
        let call = rng.once_in(8) || place % 4 == 3;
        words[place] = branch(edge_condition(rng), call, own, target(rng, &layout, words.len()));
    }
    Case::new(layout, &words)
}

/// A place a branch may be aimed at, rightly or wrongly.
fn target(rng: &mut Rng, layout: &Layout, words: usize) -> i64 {
    let near = 4 * (rng.below(9) as i64 - 4);
    let trampolines = (layout.trampoline_end - layout.trampoline_first) as usize / 4;
    match rng.below(10) {
        0 => address(layout, 0) + near,
        1 => address(layout, words) + near,
        2 => i64::from(layout.trampoline_first) + near,
        3 => i64::from(layout.trampoline_end) + near,
        4 => i64::from(layout.trampoline_first) + 4 * rng.below(trampolines + 1) as i64,
        5 => near,
        6 => 4 * (i64::from(rng.word() as i32) >> 8),
        _ => address(layout, rng.below(words)),
    }
}

/// Literal loads of bytes about both ends of the code, and at any distance.
pub fn literals(rng: &mut Rng) -> Case {
    let mut words = if rng.once_in(20) { vec![NOP; 1_500] } else { nops(rng, 4) };
    let layout = layout(rng, &words);
    for _ in 0..1 + rng.below(2) {
        let place = rng.below(words.len());
        let own = address(&layout, place);
        let from = match rng.below(5) {
            0 => address(&layout, 0) + rng.below(12) as i64 - 8,
            1 => address(&layout, words.len()) + rng.below(12) as i64 - 8,
            2 => own + 8 + rng.below(8_191) as i64 - 4_095,
            _ => address(&layout, rng.below(words.len())),
        };
        let from = from.clamp(own + 8 - 4_095, own + 8 + 4_095);
        words[place] = literal(edge_condition(rng), edge_register(rng), own as u32, from);
        if rng.once_in(10) {
            words[place] ^= 1 << rng.pick(&[20, 21, 22, 23, 24]);
        }
    }
    let target = rng.below(words.len());
    visit(rng, &layout, &mut words, target);
    Case::new(layout, &words)
}

/// Layouts and lengths, sound and damaged.
pub fn layouts(rng: &mut Rng) -> Case {
    let len = length(rng);
    let mut layout = regions::layout(rng, len.next_multiple_of(16));
    if !rng.once_in(3) {
        damage(rng, &mut layout);
    }
    let code = NOP.to_le_bytes().into_iter().cycle().take(len).collect();
    Case { layout, code, entries: len / 4 }
}

fn length(rng: &mut Rng) -> usize {
    if rng.once_in(100) {
        CODE_LIMIT + rng.below(33) - 16
    } else if rng.once_in(100) {
        rng.pick(&[CODE_LIMIT + 16, 2 * CODE_LIMIT, CODE_LIMIT - 16, CODE_LIMIT])
    } else if rng.once_in(2) {
        rng.pick(&[0, 4, 8, 15, 16, 17, 20, 31, 33])
    } else {
        16 * (1 + rng.below(8))
    }
}

/// Moves one bound of a layout off its place.
pub fn damage(rng: &mut Rng, layout: &mut Layout) {
    let anywhere = rng.word();
    let turned = 1 << rng.field(32);
    let bound = match rng.below(3) {
        0 => &mut layout.code_start,
        1 => &mut layout.trampoline_first,
        _ => &mut layout.trampoline_end,
    };
    *bound = match rng.below(6) {
        0 => bound.wrapping_add(rng.pick(&[1, 4, 8, 15])),
        1 => bound.wrapping_sub(rng.pick(&[1, 4, 8, 15])),
        2 => bound.wrapping_add(16),
        3 => bound.wrapping_sub(16),
        4 => *bound ^ turned,
        _ => rng.pick(&[anywhere, 0, u32::MAX, u32::MAX - 15, SANDBOX_END as u32, 65_536, 131_072]),
    };
}

/// Ledgers of the wrong length, over sound and damaged code.
pub fn ledgers(rng: &mut Rng) -> Case {
    let bundles = 1 + rng.below(4);
    let mut layout = regions::layout(rng, 16 * bundles);
    let mut words = region(rng, &layout, bundles);
    if rng.once_in(3) {
        spoil(rng, &mut words);
    }
    let mut case = Case::new(layout, &words);
    let entries = case.entries;
    case.entries = match rng.below(8) {
        0 => 0,
        1 => entries - 1,
        2 => entries + 1,
        3 => entries - 4,
        4 => entries + 4,
        5 => 4 * entries,
        6 => rng.below(40),
        _ => entries,
    };
    if rng.once_in(10) {
        damage(rng, &mut layout);
        case.layout = layout;
    }
    if rng.once_in(10) {
        case.code.truncate(rng.below(case.code.len()));
    }
    case
}
