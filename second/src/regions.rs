//! Layouts and acceptable regions to order, for the tests and the comparisons.

use crate::bundle::{Bundle, Role, SLOTS};
use crate::make::*;
use crate::rng::Rng;
use crate::word::{read, Class};
use crate::{Layout, BUNDLE, SANDBOX_END, TRAMPOLINES, WORD};
use std::ops::Range;

/// Registers any word may name.
pub const FREE: [u32; 13] = [0, 1, 2, 3, 4, 5, 6, 7, 8, 10, 11, 12, 14];
/// The same as a list.
pub const FREE_LIST: u32 = 0x5DFF;

/// The layout of "Words from the bench".
pub const BENCH_LAYOUT: Layout = Layout {
    code_start: 131_072,
    trampoline_first: 65_536,
    trampoline_end: 131_072,
    test_pairs: true,
};

/// A layout that keeps rule 1 for a code length that is a multiple of 16.
pub fn layout(rng: &mut Rng, code_len: usize) -> Layout {
    let (low, high) = (*TRAMPOLINES.start(), *TRAMPOLINES.end());
    let bundles = (high - low) / BUNDLE as u32;
    let mut places = [rng.field(bundles + 1), rng.field(bundles + 1)];
    places.sort();
    let trampolines = match rng.below(4) {
        0 => [low + BUNDLE as u32 * places[0]; 2],
        1 => places.map(|place| low + BUNDLE as u32 * place),
        _ => [low, high],
    };
    let top = SANDBOX_END as u32 - code_len as u32;
    let code_start = match rng.below(5) {
        0 => top,
        1 => high + rng.field((top - high) / BUNDLE as u32) * BUNDLE as u32,
        2 => high + rng.field(64) * BUNDLE as u32,
        _ => high,
    };
    Layout {
        code_start,
        trampoline_first: trampolines[0],
        trampoline_end: trampolines[1],
        test_pairs: !rng.once_in(3),
    }
}

/// A region that the check accepts.
pub fn region(rng: &mut Rng, layout: &Layout, bundles: usize) -> Vec<u32> {
    let mut words: Vec<u32> = (0..bundles).flat_map(|_| bundle(rng, layout.test_pairs)).collect();
    let all = 0..words.len();
    aim(rng, layout, &mut words, all);
    words
}

/// A bundle of acceptable words, but for aims yet to be taken.
pub fn bundle(rng: &mut Rng, test_pairs: bool) -> [u32; SLOTS] {
    if rng.once_in(12) {
        return [HEAD, rng.word(), branch(ALWAYS, false, 0, 0), rng.word()];
    }
    let mut bundle = [NOP; SLOTS];
    let mut slot = 0;
    while slot < SLOTS {
        let item = item(rng, SLOTS - slot, test_pairs);
        bundle[slot..slot + item.len()].copy_from_slice(&item);
        slot += item.len();
    }
    bundle
}

/// One word, or a pair where there is room.
fn item(rng: &mut Rng, room: usize, test_pairs: bool) -> Vec<u32> {
    if room > 1 && rng.once_in(2) {
        return pair(rng, room == 2, test_pairs).to_vec();
    }
    let condition = some_condition(rng);
    vec![match rng.below(10) {
        0 => NOP,
        1 => half_move(condition, rng.once_in(2), rng.pick(&FREE), rng.word() & 0xFFFF),
        2 => multiply(condition, rng.field(2), rng.pick(&FREE), rng.pick(&FREE), rng.pick(&FREE)),
        3 => {
            let added = rng.pick(&FREE);
            multiply_add(condition, rng.pick(&FREE), added, rng.pick(&FREE), rng.pick(&FREE))
        }
        4 => free_access(rng, condition, SP),
        5 => literal(condition, rng.pick(&FREE), 0, 0),
        6 => some_mask(rng, condition, SP, &DATA_BITS),
        7 | 8 => branch(condition, room == 1 && rng.once_in(2), 0, 0),
        _ => some_data(rng, condition),
    }]
}

fn pair(rng: &mut Rng, last: bool, test_pairs: bool) -> [u32; 2] {
    let (condition, register) = (some_condition(rng), rng.pick(&FREE));
    match rng.below(if test_pairs { 6 } else { 5 }) {
        0 => {
            let source = rng.pick(&FREE);
            let write = data(condition, MOV, 0, 0, SP, source);
            [write, some_mask(rng, condition, SP, &DATA_BITS)]
        }
        1 => {
            let call = last && rng.once_in(2);
            let mask = some_mask(rng, condition, register, &BRANCH_BITS);
            [mask, register_branch(condition, call, register)]
        }
        5 => {
            let test = test(ALWAYS, register, some_low(rng, &DATA_BITS));
            [test, free_access(rng, EQUAL, register)]
        }
        _ => {
            let mask = some_mask(rng, condition, register, &DATA_BITS);
            [mask, free_access(rng, condition, register)]
        }
    }
}

/// A mask of a register, of the needed bits and as often of more, from another
/// register and as often from its own; the latter is no mask of r9 or r15.
pub fn some_mask(rng: &mut Rng, condition: u32, register: u32, needed: &[u32]) -> u32 {
    let others = [rng.pick(&FREE), rng.pick(&FREE), SP];
    let source = if rng.once_in(2) { register } else { rng.pick(&others) };
    mask_from(condition, source, register, some_low(rng, needed))
}

/// The low twelve bits of a mask or test, of the needed bits and as often of
/// more.
pub fn some_low(rng: &mut Rng, needed: &[u32]) -> u32 {
    let more = if rng.once_in(2) { rng.field(256) } else { 0 };
    rng.pick(needed) | more
}

/// An access on a register, of others that are free.
fn free_access(rng: &mut Rng, condition: u32, rn: u32) -> u32 {
    let others: Vec<u32> = FREE.into_iter().filter(|&rt| rt != rn).collect();
    let rt = rng.pick(&others);
    some_access(rng, condition, rn, rt)
}

/// An access of any kind on a register, of another one. It is in its class, but
/// for write-back where the two are one.
pub fn some_access(rng: &mut Rng, condition: u32, rn: u32, rt: u32) -> u32 {
    match rng.below(4) {
        0 => some_half(rng, condition, rn, rt),
        1 => some_multiple(rng, condition, rn, rt),
        _ => {
            let letters = some_letters(rng) | rng.pick(&[0, B, L, B | L]);
            access(condition, letters, rn, rt, rng.word())
        }
    }
}

pub fn some_half(rng: &mut Rng, condition: u32, rn: u32, rt: u32) -> u32 {
    let (load, kind) = rng.pick(&[(0, 1), (L, 1), (L, 2), (L, 3)]);
    half_access(condition, some_letters(rng) | I | load, kind, rn, rt, rng.word())
}

/// Moves any free registers besides.
pub fn some_multiple(rng: &mut Rng, condition: u32, rn: u32, rt: u32) -> u32 {
    let letters = rng.field(32) & !B;
    let others = if letters & W == 0 { FREE_LIST } else { FREE_LIST & !(1 << rn) };
    multiple(condition, letters, rn, rng.word() & others | 1 << rt)
}

fn some_letters(rng: &mut Rng) -> u32 {
    rng.pick(&[0, P, P | W]) | rng.pick(&[0, U])
}

/// A data word that writes a free register or none.
pub fn some_data(rng: &mut Rng, condition: u32) -> u32 {
    let operation = rng.field(16);
    let sources = [rng.pick(&FREE), SP];
    let (s, rn, rd) = match operation {
        8..=11 => (1, rng.pick(&sources), 0),
        13 | 15 => (rng.field(2), 0, rng.pick(&FREE)),
        _ => (rng.field(2), rng.pick(&sources), rng.pick(&FREE)),
    };
    let low = match rng.below(3) {
        0 => IMMEDIATE | rng.word() & 0xFFF,
        1 => (rng.word() & 0xFE0) | rng.pick(&sources),
        _ => rng.pick(&FREE) << 8 | (rng.word() & 0x60) | 0x10 | rng.pick(&sources),
    };
    data(condition, operation, s, rn, rd, low)
}

/// A word in no class, but for the head's in slot 0: of any why, of condition 15
/// and others at once, and with bit 4 either way.
pub fn some_unclassed(rng: &mut Rng) -> u32 {
    let condition = if rng.once_in(2) { 15 } else { some_condition(rng) };
    let (rn, rt) = (rng.field(16), rng.field(16));
    match rng.below(11) {
        0..=3 => system_call(condition, rng.word()),
        4..=7 => indexed_access(condition, rng.field(32), rn, rt, rng.word()),
        8 => coprocessor(condition, rng.field(3), rng.word()),
        9 => some_access(rng, 15, rn, rt),
        _ => HEAD,
    }
}

pub fn some_condition(rng: &mut Rng) -> u32 {
    if rng.once_in(2) {
        ALWAYS
    } else {
        rng.field(15)
    }
}

/// The roles of a region's words.
pub fn roles(words: &[u32]) -> Vec<Role> {
    let code = bytes(words);
    code.as_chunks::<BUNDLE>().0.iter().flat_map(|bytes| Bundle::of(bytes).roles()).collect()
}

/// Aims the direct branches and literal loads in a part of a region: branches
/// at words they may land on and at trampolines, loads at words in reach.
pub fn aim(rng: &mut Rng, layout: &Layout, words: &mut [u32], part: Range<usize>) {
    let roles = roles(words);
    let targets: Vec<i64> =
        (0..words.len()).filter(|&w| roles[w].is_target()).map(|w| address(layout, w)).collect();
    for word in part.filter(|&word| roles[word] != Role::Data) {
        let own = address(layout, word) as u32;
        let reading = read(words[word]);
        match reading.class {
            Class::Branch => {
                let target = trampoline(rng, layout, own).unwrap_or_else(|| rng.pick(&targets));
                words[word] = branch(reading.condition(), reading.is_call(), own, target);
            }
            _ if reading.is_literal_load() => {
                let first = word.saturating_sub(1_000);
                let count = (word + 1_000).min(words.len()) - first;
                let from = address(layout, first + rng.below(count));
                words[word] = literal(reading.condition(), reading.rd(), own, from);
            }
            _ => {}
        }
    }
}

/// The region with new bundles in a part of it: mostly acceptable ones, else
/// nops, a head, copies of other bundles, or one word spoilt.
pub fn edit(rng: &mut Rng, layout: &Layout, words: &[u32], part: Range<usize>) -> Vec<u32> {
    let mut edited = words.to_vec();
    let style = rng.below(8);
    for first in part.clone().step_by(SLOTS) {
        let copied = SLOTS * rng.below(words.len() / SLOTS);
        let new = match style {
            0 => [NOP; SLOTS],
            1 => [HEAD, rng.word(), rng.word(), rng.word()],
            2 => std::array::from_fn(|slot| words[copied + slot]),
            _ => bundle(rng, layout.test_pairs),
        };
        edited[first..first + SLOTS].copy_from_slice(&new);
    }
    if style != 2 {
        aim(rng, layout, &mut edited, part.clone());
    }
    if rng.once_in(6) {
        spoil(rng, &mut edited[part]);
    }
    edited
}

/// Damages one word: a bit turned, or another word in its place, one in no class
/// among others.
pub fn spoil(rng: &mut Rng, words: &mut [u32]) {
    let place = rng.below(words.len());
    match rng.below(8) {
        0 => words[place] = rng.word(),
        1 => words[place] = words[rng.below(words.len())],
        2..=4 => words[place] = some_unclassed(rng),
        _ => words[place] ^= 1 << rng.field(32),
    }
}

/// Some whole bundles of a region of this many words: at either end, all of
/// it, or anywhere.
pub fn part(rng: &mut Rng, words: usize) -> Range<usize> {
    let bundles = words / SLOTS;
    let first = rng.below(bundles);
    let past = first + 1 + rng.below(bundles - first);
    let (first, past) = match rng.below(8) {
        0 => (0, bundles),
        1 => (0, 1),
        2 => (bundles - 1, bundles),
        3 => (first, first + 1),
        _ => (first, past),
    };
    SLOTS * first..SLOTS * past
}

/// Now and then a trampoline, where a branch reaches that far.
fn trampoline(rng: &mut Rng, layout: &Layout, own: u32) -> Option<i64> {
    let count = (layout.trampoline_end - layout.trampoline_first) as usize / BUNDLE;
    let reachable = own < *TRAMPOLINES.start() + (1 << 25);
    (count > 0 && reachable && rng.once_in(5))
        .then(|| i64::from(layout.trampoline_first) + (BUNDLE * rng.below(count)) as i64)
}

pub fn address(layout: &Layout, word: usize) -> i64 {
    i64::from(layout.code_start) + (WORD * word) as i64
}
