//! Families of reproducible random calls, to compare programs by: here regions
//! for the check.

mod pairs;
pub mod patches;
mod places;
mod transfers;

use crate::make::*;
use crate::regions::{
    self, address, aim, bundle, region, some_low, some_mask, some_unclassed, spoil, FREE,
};
use crate::rng::Rng;
use crate::{Layout, CODE_LIMIT};

/// A kind of call, and its share of all.
pub struct Family<T> {
    pub name: &'static str,
    share: u64,
    pub make: fn(&mut Rng) -> T,
}

/// One check, as a program is handed it.
pub struct Case {
    pub layout: Layout,
    pub code: Vec<u8>,
    /// The ledger's length.
    pub entries: usize,
}

impl Case {
    /// A region with a ledger that fits it.
    pub fn new(layout: Layout, words: &[u32]) -> Case {
        Case { layout, code: bytes(words), entries: words.len() }
    }

    /// A ledger to hand over, of entries that nobody means.
    pub fn stale(&self, rng: &mut Rng) -> Vec<u32> {
        (0..self.entries).map(|_| rng.word()).collect()
    }
}

/// A program's argument: first the seed, then how many regions and patches.
pub fn argument(place: usize, default: u64) -> u64 {
    match std::env::args().nth(place) {
        Some(text) => text.parse().expect("seed, regions and patches are numbers"),
        None => default,
    }
}

/// Each family of regions, its numbers, and its share of so many.
pub fn of_regions(seed: u64, count: u64) -> impl Iterator<Item = (Family<Case>, Rng, u64)> {
    shares(REGIONS, seed << 8, count)
}

/// The same for patches; a family makes some at a time.
pub fn of_patches(
    seed: u64,
    count: u64,
) -> impl Iterator<Item = (Family<Vec<patches::Call>>, Rng, u64)> {
    shares(patches::ALL, seed << 8 | 0x80, count)
}

fn shares<T, const N: usize>(
    families: [Family<T>; N],
    seed: u64,
    count: u64,
) -> impl Iterator<Item = (Family<T>, Rng, u64)> {
    let all: u64 = families.iter().map(|family| family.share).sum();
    (seed..).zip(families).map(move |(seed, family)| {
        let share = count * family.share / all;
        (family, Rng::new(seed), share)
    })
}

const REGIONS: [Family<Case>; 12] = [
    Family { name: "random", share: 1, make: random },
    Family { name: "edges", share: 4, make: edges },
    Family { name: "pairs", share: 6, make: pairs::pairs },
    Family { name: "transfers", share: 4, make: transfers::transfers },
    Family { name: "heads", share: 1, make: heads },
    Family { name: "branches", share: 3, make: places::branches },
    Family { name: "literals", share: 2, make: places::literals },
    Family { name: "layouts", share: 1, make: places::layouts },
    Family { name: "ledgers", share: 1, make: places::ledgers },
    Family { name: "spoilt", share: 2, make: spoilt },
    Family { name: "valid", share: 2, make: valid },
    Family { name: "large", share: 1, make: large },
];

/// A layout fit for this many words.
fn layout(rng: &mut Rng, words: &[u32]) -> Layout {
    regions::layout(rng, 4 * words.len())
}

/// One to `most` bundles of nops.
fn nops(rng: &mut Rng, most: usize) -> Vec<u32> {
    vec![NOP; 4 * (1 + rng.below(most))]
}

/// Puts a branch to a word of the region in the place of a nop, by choice
/// before that word, so that its role tells even where it breaks a rule.
fn visit(rng: &mut Rng, layout: &Layout, words: &mut [u32], target: usize) {
    let own = if rng.once_in(2) { rng.below(target + 1) } else { rng.below(words.len()) };
    if words[own] == NOP {
        let own_address = address(layout, own) as u32;
        words[own] = branch(ALWAYS, false, own_address, address(layout, target));
    }
}

/// Random words: alone among nops, or all through.
fn random(rng: &mut Rng) -> Case {
    let mut words = nops(rng, 3);
    match rng.below(3) {
        0 => words.iter_mut().for_each(|word| *word = rng.word()),
        1 => {
            let place = rng.below(words.len());
            words[place] = rng.word();
        }
        _ => {
            let place = rng.below(words.len());
            let class = rng.pick(&[0b000, 0b001, 0b010, 0b100, 0b101]);
            words[place] = rng.word() & !(7 << 25) & !(1 << 28) | class << 25;
        }
    }
    Case::new(layout(rng, &words), &words)
}

/// A word at the edge of its class or why, with or without its neighbours.
fn edges(rng: &mut Rng) -> Case {
    let mut word = edge_word(rng);
    for _ in 0..rng.below(4) {
        word ^= 1 << rng.field(32);
    }
    placed(rng, word)
}

/// A word among nops, and often what guards or closes it.
fn placed(rng: &mut Rng, word: u32) -> Case {
    let mut words = nops(rng, 2);
    let place = rng.below(words.len());
    words[place] = word;
    if !place.is_multiple_of(4) && !rng.once_in(4) {
        words[place - 1] = edge_guard(rng, word);
    }
    if place % 4 != 3 && rng.once_in(2) {
        words[place + 1] = some_mask(rng, word >> 28, SP, &DATA_BITS);
    }
    let layout = layout(rng, &words);
    if rng.once_in(2) {
        visit(rng, &layout, &mut words, place);
    }
    Case::new(layout, &words)
}

/// What would guard the word; now and then it reads some other register, has more
/// bits, or has one turned.
fn edge_guard(rng: &mut Rng, word: u32) -> u32 {
    let tested = word >> 28 == EQUAL && rng.once_in(2);
    let mut guard = if tested { test(ALWAYS, word >> 16 & 15, DATA_BITS[0]) } else { guard(word) };
    match rng.below(8) {
        0 => set(&mut guard, 16, edge_register(rng)),
        1 => guard |= rng.field(256),
        2 => guard ^= 1 << rng.field(8),
        _ => {}
    }
    guard
}

/// A word of some class or of none, with conditions and registers at their edges.
fn edge_word(rng: &mut Rng) -> u32 {
    let c = edge_condition(rng);
    let [a, b, d] = [(); 3].map(|()| edge_register(rng));
    let low = rng.word() & 0xFFF;
    match rng.below(19) {
        0 => data(c, rng.field(16), rng.field(2), a, b, IMMEDIATE | low),
        1 => data(c, rng.field(16), rng.field(2), a, b, low & 0xFE0 | d),
        2 => data(c, rng.field(16), rng.field(2), a, b, d << 8 | low & 0x6F | 0x10),
        3 => data(c, 8 + rng.field(4), 1, a, 0, IMMEDIATE | low),
        4 => data(c, rng.pick(&[13, 15]), rng.field(2), 0, a, low & 0xFE0 | b),
        5 => half_move(c, rng.once_in(2), a, rng.word() & 0xFFFF),
        6 => NOP,
        7 => multiply(c, rng.field(2), a, b, d),
        8 => multiply_add(c, a, b, d, edge_register(rng)),
        9 | 10 => access(c, rng.field(32), a, b, low),
        11 => access(c, P | L | rng.pick(&[0, U]), 15, a, low & 0x3F),
        12 | 13 => transfers::word(rng),
        14 => c << 28 | (0b1010 | rng.field(2)) << 24 | rng.word() & 0xF,
        15 => mask_from(c, a, rng.pick(&[b, SP]), some_low(rng, &DATA_BITS)),
        16 => register_branch(c, rng.once_in(2), a),
        _ => some_unclassed(rng),
    }
}

fn edge_condition(rng: &mut Rng) -> u32 {
    match rng.below(4) {
        0 => EQUAL,
        1 => rng.field(16),
        _ => ALWAYS,
    }
}

/// Mostly free registers, else those where rules begin and end.
fn edge_register(rng: &mut Rng) -> u32 {
    if rng.once_in(3) {
        rng.pick(&[0, 8, 9, 10, 12, 13, 14, 15])
    } else {
        rng.pick(&FREE)
    }
}

/// Sets four bits of a word from a place up.
fn set(word: &mut u32, place: u32, field: u32) {
    *word = *word & !(15 << place) | field << place;
}

/// Heads in right and wrong slots, all but heads, any data behind them.
fn heads(rng: &mut Rng) -> Case {
    let mut words = nops(rng, 4);
    let in_slot = if rng.once_in(4) { rng.below(4) } else { 0 };
    let first = 4 * rng.below(words.len() / 4);
    words[first + in_slot] = if rng.once_in(5) { HEAD ^ 1 << rng.field(32) } else { HEAD };
    for word in &mut words[first + in_slot + 1..first + 4] {
        *word = match rng.below(4) {
            0 => HEAD,
            1 => branch(ALWAYS, rng.once_in(2), 0, 4 * rng.below(8) as i64),
            2 => NOP,
            _ => rng.word(),
        };
    }
    let layout = layout(rng, &words);
    for _ in 0..rng.below(3) {
        let target = rng.below(words.len());
        visit(rng, &layout, &mut words, target);
    }
    Case::new(layout, &words)
}

/// One bundle of a case where the words themselves are odd.
fn odd_bundle(rng: &mut Rng) -> Vec<u32> {
    let make = rng.pick(&[random, edges, pairs::pairs, transfers::transfers, heads]);
    let words = words(&make(rng).code);
    let first = 4 * rng.below(words.len() / 4);
    words[first..first + 4].to_vec()
}

/// An acceptable region with a few words damaged.
fn spoilt(rng: &mut Rng) -> Case {
    let (layout, mut words) = valid_words(rng, 8);
    for _ in 0..1 + rng.below(3) {
        spoil(rng, &mut words);
    }
    Case::new(layout, &words)
}

fn valid(rng: &mut Rng) -> Case {
    let (layout, words) = valid_words(rng, 12);
    Case::new(layout, &words)
}

fn valid_words(rng: &mut Rng, most: usize) -> (Layout, Vec<u32>) {
    let bundles = 1 + rng.below(most);
    let layout = regions::layout(rng, 16 * bundles);
    let words = region(rng, &layout, bundles);
    (layout, words)
}

/// Some hundreds of words, now and then the most there can be, mostly sound.
fn large(rng: &mut Rng) -> Case {
    let bundles = if rng.once_in(500) { CODE_LIMIT / 16 } else { 20 + rng.below(100) };
    let layout = regions::layout(rng, 16 * bundles);
    let mut words = region(rng, &layout, bundles);
    if rng.once_in(3) {
        spoil(rng, &mut words);
    }
    Case::new(layout, &words)
}

/// Bundles full of branches among ordinary ones, all soundly aimed.
fn web(rng: &mut Rng, layout: &Layout, bundles: usize) -> Vec<u32> {
    let mut words = Vec::new();
    for _ in 0..bundles {
        if rng.once_in(3) {
            words.extend(bundle(rng, layout.test_pairs));
        } else {
            let calls = [false, false, false, rng.once_in(2)];
            words.extend(calls.map(|call| branch(rng.field(15), call, 0, 0)));
        }
    }
    let all = 0..words.len();
    aim(rng, layout, &mut words, all);
    words
}
