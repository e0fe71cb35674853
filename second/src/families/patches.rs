//! The families of patches: honest sequences, and calls with damaged parts.

use super::pairs::{two_masks, two_pairs};
use super::{odd_bundle, places::damage, web, Family};
use crate::make::{branch, bytes, padded, words, ALWAYS, HEAD, NOP};
use crate::regions::{self, address, edit, part, region};
use crate::rng::Rng;
use crate::{check, patch, Layout, Outcome, CODE_LIMIT};
use std::ops::Range;

pub(super) const ALL: [Family<Vec<Call>>; 5] = [
    Family { name: "sequences", share: 5, make: sequence },
    Family { name: "damaged", share: 3, make: |rng| vec![damaged(rng)] },
    Family { name: "odd", share: 1, make: |rng| vec![odd(rng)] },
    Family { name: "counts", share: 1, make: |rng| vec![counts(rng)] },
    Family { name: "outdated", share: 2, make: |rng| vec![outdated(rng)] },
];

/// Everything a patch call is handed.
#[derive(Clone, PartialEq)]
pub struct Call {
    pub layout: Layout,
    pub ledger: Vec<u32>,
    pub offset: usize,
    pub old: Vec<u8>,
    pub new: Vec<u8>,
    /// The whole edited region, where the ledger is the region's own.
    edited: Option<Vec<u32>>,
}

impl Call {
    /// The call that turns words of a region into as many others.
    pub fn new(layout: Layout, ledger: &[u32], first: usize, old: &[u32], new: &[u32]) -> Call {
        let (ledger, offset) = (ledger.to_vec(), 4 * first);
        Call { layout, ledger, offset, old: bytes(old), new: bytes(new), edited: None }
    }

    /// This program's answer, and what it leaves.
    pub fn answer(&self) -> (Outcome, Call) {
        let mut after = self.clone();
        let Call { layout, ledger, offset, old, new, .. } = &mut after;
        let outcome = patch(layout, ledger, *offset, old, new);
        (outcome, after)
    }

    /// Demand 3, of an answer and what it left: both are as a fresh check of the
    /// edited region has them.
    pub fn is_fresh(&self, outcome: Outcome, after: &Call) -> bool {
        let Some(edited) = &self.edited else { return true };
        match (outcome, fresh(&self.layout, edited)) {
            (Outcome::Accepted, Some(ledger)) => after.ledger == ledger && after.old == self.new,
            (Outcome::Refused { number, .. }, None) => number != 12 && number != 13,
            _ => false,
        }
    }
}

/// A region and the ledger its check wrote.
fn checked(rng: &mut Rng) -> (Layout, Vec<u32>, Vec<u32>) {
    let bundles = match rng.below(1_000) {
        0 => CODE_LIMIT / 16,
        1..=50 => 20 + rng.below(80),
        _ => 1 + rng.below(8),
    };
    let layout = regions::layout(rng, 16 * bundles);
    let make = rng.pick(&[region, web]);
    let code = make(rng, &layout, bundles);
    let ledger = fresh(&layout, &code).expect("a region to order is accepted");
    (layout, code, ledger)
}

/// What a fresh check writes, if it accepts.
fn fresh(layout: &Layout, code: &[u32]) -> Option<Vec<u32>> {
    let mut ledger = vec![0; code.len()];
    (check(layout, &bytes(code), &mut ledger) == Outcome::Accepted).then_some(ledger)
}

/// Honest patches, one upon the other.
fn sequence(rng: &mut Rng) -> Vec<Call> {
    let (layout, mut code, mut ledger) = checked(rng);
    let mut calls = Vec::new();
    for _ in 0..1 + rng.below(20) {
        let part = part(rng, code.len());
        let call = honest(rng, layout, &ledger, &code, part.clone());
        let (_, after) = call.answer();
        code[part].copy_from_slice(&words(&after.old));
        ledger = after.ledger;
        calls.push(call);
    }
    calls
}

/// A call that edits a part of a region, with the region's own ledger.
fn honest(rng: &mut Rng, layout: Layout, ledger: &[u32], code: &[u32], part: Range<usize>) -> Call {
    let edited = edit(rng, &layout, code, part.clone());
    let call = Call::new(layout, ledger, part.start, &code[part.clone()], &edited[part]);
    Call { edited: Some(edited), ..call }
}

/// An honest call with one part or two of it damaged.
fn damaged(rng: &mut Rng) -> Call {
    let (layout, code, ledger) = checked(rng);
    let part = part(rng, code.len());
    let mut call = Call { edited: None, ..honest(rng, layout, &ledger, &code, part) };
    for _ in 0..1 + rng.below(2) {
        match rng.below(12) {
            0..=3 => damage_entry(rng, &mut call.ledger),
            4 => call.ledger.iter_mut().for_each(|entry| *entry = rng.word() % 64),
            5 => resize(rng, &mut call.ledger, 0),
            6 => call.offset = damage_offset(rng, call.offset),
            7 => resize(rng, &mut call.old, 0),
            8 => resize(rng, &mut call.new, 0),
            9 => {
                let len = call.new.len() + rng.below(20);
                call.old.resize(len, 0);
                call.new.resize(len, 0);
            }
            10 => damage_old(rng, &mut call.old),
            _ => damage(rng, &mut call.layout),
        }
    }
    call
}

fn damage_entry(rng: &mut Rng, ledger: &mut [u32]) {
    if ledger.is_empty() {
        return;
    }
    let words = ledger.len() as u32;
    let entry = &mut ledger[rng.below(words as usize)];
    *entry = match rng.below(6) {
        0 | 1 => *entry ^ (1 + rng.field(3)),
        2 => entry.wrapping_add(4),
        3 => entry.wrapping_sub(4),
        4 => 4 * (words - 1 + rng.field(3)) + *entry % 4,
        _ => rng.word(),
    };
}

fn resize<T: Clone>(rng: &mut Rng, part: &mut Vec<T>, filling: T) {
    let len = match rng.below(5) {
        0 => 0,
        1 => part.len() + rng.pick(&[1, 4, 16, CODE_LIMIT / 4]),
        _ => part.len().saturating_sub(rng.pick(&[1, 4, 15, 16])),
    };
    part.resize(len, filling);
}

fn damage_offset(rng: &mut Rng, offset: usize) -> usize {
    match rng.below(6) {
        0 => offset.wrapping_add(rng.pick(&[1, 4, 8])),
        1 => offset.wrapping_add(16),
        2 => offset.wrapping_sub(16),
        3 => usize::MAX - rng.below(64),
        4 => usize::MAX - 15 - 16 * rng.below(64),
        _ => rng.draw() as usize,
    }
}

fn damage_old(rng: &mut Rng, old: &mut [u8]) {
    if old.len() < 16 {
        return;
    }
    let word = 4 * rng.below(old.len() / 4);
    let other = match rng.below(4) {
        0 => NOP,
        1 => HEAD,
        2 => branch(ALWAYS, false, 0, 4 * (rng.below(16) as i64 - 8)),
        _ => words(&old[word..word + 4])[0] ^ 1 << rng.field(32),
    };
    old[word..word + 4].copy_from_slice(&other.to_le_bytes());
}

/// Odd bundles for odd bundles, old ones that no check accepts among them, with
/// a ledger that mostly agrees on their roles.
fn odd(rng: &mut Rng) -> Call {
    let bundles = 1 + rng.below(3);
    let layout = regions::layout(rng, 16 * bundles);
    let mut ledger: Vec<u32> = (0..4 * bundles).map(|_| 4 * rng.field(4)).collect();
    let first = 4 * rng.below(bundles);
    let (old, new) = (odd_bundle(rng), odd_bundle(rng));
    for (entry, role) in ledger[first..].iter_mut().zip(regions::roles(&old)) {
        *entry += role as u32;
    }
    if rng.once_in(8) {
        damage_entry(rng, &mut ledger);
    }
    Call::new(layout, &ledger, first, &old, &new)
}

/// Counts about the number of words, under old and new branches.
fn counts(rng: &mut Rng) -> Call {
    let bundles = 1 + rng.below(3);
    let layout = regions::layout(rng, 16 * bundles);
    let target = rng.below(4 * bundles);
    let mut ledger = vec![0; 4 * bundles];
    ledger[target] = match rng.below(3) {
        0 => 4 * rng.field(9),
        _ => 4 * (4 * bundles as u32 + 1 - rng.field(6)),
    };
    let first = 4 * rng.below(bundles);
    let mut visitors = || -> Vec<u32> {
        let call = rng.once_in(8);
        let visitor = |place| {
            let own = address(&layout, place) as u32;
            branch(ALWAYS, call, own, address(&layout, target))
        };
        (first..first + 4).map(|place| if rng.once_in(2) { NOP } else { visitor(place) }).collect()
    };
    let (old, new) = (visitors(), visitors());
    Call::new(layout, &ledger, first, &old, &new)
}

/// Old words whose roles request 3 changed, with the roles of today or one that
/// differs.
fn outdated(rng: &mut Rng) -> Call {
    let layout = regions::layout(rng, 16);
    let make = rng.pick(&[two_masks, two_pairs]);
    let old = padded(&make(rng));
    let mut ledger: Vec<u32> = regions::roles(&old).into_iter().map(|role| role as u32).collect();
    if rng.once_in(2) {
        ledger[1 + rng.below(2)] ^= 1;
    }
    Call::new(layout, &ledger, 0, &old, &odd_bundle(rng))
}
