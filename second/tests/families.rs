//! The families make what requests 1, 3 and 6 add, sound and with but one thing
//! wrong: here half accesses and multiple transfers, beside this file masks, and
//! words in no class.

mod common;
mod masks;
mod whys;

use common::{answer_to_bytes, mended};
use second::families::{of_patches, of_regions, patches::Call, Case};
use second::make::{words, B, I, L, NOP, P, W};
use second::Outcome;
use std::collections::BTreeMap;

const PLAIN: u32 = 0;
const INNER: u32 = 1;

/// A kind of accepted word, told by word and role.
type Sound = (&'static str, fn(u32, u32) -> bool);

const SOUND: [Sound; 11] = [
    ("halfword load", |w, role| half(w, L, 1) && role == INNER),
    ("halfword store", |w, role| half(w, 0, 1) && role == INNER),
    ("halfword store of r13", |w, role| half(w, 0, 1) && w >> 12 & 15 == 13 && role == INNER),
    ("signed byte", |w, role| half(w, L, 2) && role == INNER),
    ("signed halfword", |w, role| half(w, L, 3) && role == INNER),
    ("halfword on r13", |w, role| half(w, L, 1) && role == PLAIN),
    ("multiple load", |w, role| is_multiple(w) && is_load(w) && role == INNER),
    ("multiple store", |w, role| is_multiple(w) && !is_load(w) && role == INNER),
    ("base in the list", |w, role| is_multiple(w) && w >> (w >> 16 & 15) & 1 == 1 && role == INNER),
    ("push", |w, role| w >> 16 & 0xFFF == 0x92D && role == PLAIN),
    ("pop", |w, role| w >> 16 & 0xFFF == 0x8BD && role == PLAIN),
];

/// A kind of refused word: the refusal, who is meant, and what mends it.
type Near = (&'static str, u32, fn(u32) -> bool, fn(u32) -> u32);

const NEAR: [Near; 18] = [
    ("distance by register", 4, is_half, |w| w | I << 20),
    ("bits 6..5 of 0", 4, is_half, |w| w | 1 << 5),
    ("signed store", 4, is_half, |w| w | L << 20),
    ("P = 0 with W = 1", 4, is_half, |w| w | P << 20),
    ("write-back into Rt", 4, is_half, |w| with(w, 12, 1)),
    ("half access of r9 or r15", 5, is_half, |w| with(w, 12, 1)),
    ("half access on r9 or r15", 5, is_half, |w| with(w, 16, 13)),
    ("half load of r13", 6, is_half, |w| with(w, 12, 1)),
    ("half access without guard", 7, is_half, |w| with(w, 16, 13)),
    ("empty list", 4, is_multiple, |w| w | 1 << 1),
    ("write-back into the list", 4, is_multiple, |w| w & !(W << 20)),
    ("bit 22 of a multiple", 4, is_multiple, |w| w & !(B << 20)),
    ("r9 in a list", 5, is_multiple, |w| w & !(1 << 9)),
    ("r15 in a list", 5, is_multiple, |w| w & !(1 << 15)),
    ("multiple on r9 or r15", 5, is_multiple, |w| with(w, 16, 13)),
    ("load of r13 by a list", 6, |w| is_multiple(w) && is_load(w), |w| w & !(1 << 13)),
    ("store of r13 by a list", 6, |w| is_multiple(w) && !is_load(w), |w| w & !(1 << 13)),
    ("multiple without guard", 7, is_multiple, |w| with(w, 16, 13)),
];

fn is_half(word: u32) -> bool {
    word >> 25 & 7 == 0b000 && word & 0x90 == 0x90
}

fn half(word: u32, load: u32, kind: u32) -> bool {
    is_half(word) && word >> 20 & L == load && word >> 5 & 3 == kind
}

fn is_multiple(word: u32) -> bool {
    word >> 25 & 7 == 0b100
}

fn is_load(word: u32) -> bool {
    word >> 20 & L == L
}

/// The word with another field of four bits.
fn with(word: u32, place: u32, field: u32) -> u32 {
    word & !(15 << place) | field << place
}

/// How often each kind of word was met.
#[derive(Default)]
struct Met(BTreeMap<String, usize>);

impl Met {
    fn meet(&mut self, name: &str) {
        *self.0.entry(name.to_string()).or_default() += 1;
    }

    fn accepted(&mut self, words: &[u32], ledger: &[u32]) {
        let mut before = NOP;
        for (&word, entry) in words.iter().zip(ledger) {
            let kinds = SOUND.iter().filter(|(_, is)| is(word, entry % 4));
            kinds.for_each(|(name, _)| self.meet(name));
            masks::sound(before, word, entry % 4).iter().for_each(|name| self.meet(name));
            before = word;
        }
    }

    /// Counts a near miss only where it alone keeps the region out.
    fn refused(&mut self, case: &Case, refusal: Outcome) {
        let Outcome::Refused { number, address: Some(address), .. } = refusal else { return };
        let place = (address - case.layout.code_start) as usize / 4;
        let code = words(&case.code);
        let word = code[place];
        for (name, _, _, mend) in NEAR.iter().filter(|near| near.1 == number && near.2(word)) {
            if mended(case, place, mend(word)) == Outcome::Accepted {
                self.meet(name);
            }
        }
        masks::near(case, number, place).iter().for_each(|name| self.meet(name));
        whys::met(&code, place, refusal.why()).iter().for_each(|name| self.meet(name));
    }

    /// The same of a patch, for the words it brings in.
    fn refused_patch(&mut self, call: &Call, refusal: Outcome) {
        let Outcome::Refused { number: 4..=11, why, address: Some(address) } = refusal else {
            return;
        };
        let place = (address - call.layout.code_start) as usize / 4 - call.offset / 4;
        whys::met(&words(&call.new), place, why).iter().for_each(|name| self.meet(name));
    }

    fn has(&self, least: usize, names: impl Iterator<Item = String>) {
        for name in names {
            assert!(self.0.get(&name).is_some_and(|&met| met >= least), "{name}: {:?}", self.0);
        }
    }
}

/// What some families make in their share of so many regions.
fn met_in(count: u64, is: impl Fn(&str) -> bool) -> Met {
    let mut met = Met::default();
    for (family, mut rng, share) in of_regions(1, count).filter(|family| is(family.0.name)) {
        for _ in 0..share {
            let case = (family.make)(&mut rng);
            match answer_to_bytes(&case.layout, &case.code) {
                Ok(ledger) => met.accepted(&words(&case.code), &ledger),
                Err(refusal) => met.refused(&case, refusal),
            }
        }
    }
    met
}

#[test]
fn regions() {
    let met = met_in(40_000, |_| true);
    let transfers = SOUND.iter().map(|kind| kind.0).chain(NEAR.iter().map(|kind| kind.0));
    met.has(20, transfers.map(str::to_string));
    met.has(1_500, masks::sound_names());
    met.has(30, whys::names());
}

#[test]
fn pairs() {
    met_in(120_000, |name| name == "pairs").has(20, masks::near_names());
}

#[test]
fn guards() {
    let met = met_in(60_000, |name| name == "edges" || name == "transfers");
    met.has(20, masks::guard_names());
}

#[test]
fn patches() {
    let mut met = Met::default();
    for (family, mut rng, share) in of_patches(1, 4_000) {
        for call in (0..share).flat_map(|_| (family.make)(&mut rng)) {
            let (outcome, after) = call.answer();
            if outcome == Outcome::Accepted {
                met.accepted(&words(&call.new), &after.ledger[call.offset / 4..]);
            }
            met.refused_patch(&call, outcome);
            masks::old(&call, outcome.number()).iter().for_each(|name| met.meet(name));
        }
    }
    // Regions to order store no r13, and other patches are seldom accepted.
    let transfers = SOUND.iter().map(|kind| kind.0).filter(|&name| name != "halfword store of r13");
    met.has(20, transfers.map(str::to_string));
    met.has(20, masks::old_names());
    met.has(500, masks::sound_names());
    met.has(10, whys::names());
}
