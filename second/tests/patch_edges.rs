//! The patch at the edges of its rules.

mod common;

use common::{answer, no_class, refused, refused_at, LAYOUT};
use second::make::*;
use second::{patch, Layout, Outcome, Why};

const N: u32 = NOP;
const START: u32 = 131_072;

/// A region and its ledger, however the two came about.
#[derive(Clone)]
struct State {
    layout: Layout,
    code: Vec<u32>,
    ledger: Vec<u32>,
}

impl State {
    fn checked(words: &[u32]) -> State {
        let code = padded(words);
        let ledger = answer(&LAYOUT, &code).unwrap();
        State { layout: LAYOUT, code, ledger }
    }

    fn with_entry(mut self, word: usize, entry: u32) -> State {
        self.ledger[word] = entry;
        self
    }

    fn with_old(mut self, word: usize, old: u32) -> State {
        self.code[word] = old;
        self
    }

    /// The answer to a patch at a word, and the code and ledger after it. A
    /// refusal must change nothing.
    fn patch(&self, first: usize, new: &[u32]) -> Result<(Vec<u32>, Vec<u32>), Outcome> {
        let new = padded(new);
        let mut after = self.clone();
        let mut old = bytes(&self.code[first..first + new.len()]);
        let outcome = patch(&self.layout, &mut after.ledger, 4 * first, &mut old, &bytes(&new));
        after.code[first..first + new.len()].copy_from_slice(&words(&old));
        match outcome {
            Outcome::Accepted => Ok((after.code, after.ledger)),
            refusal => {
                assert_eq!((&after.code, &after.ledger), (&self.code, &self.ledger));
                Err(refusal)
            }
        }
    }
}

fn to(own: u32, word: u32) -> u32 {
    branch(14, false, START + 4 * own, i64::from(START + 4 * word))
}

/// The answer where only layout, offset and lengths matter.
fn placed(layout: &Layout, entries: usize, offset: usize, old: usize, new: usize) -> Outcome {
    let nops = |len| N.to_le_bytes().into_iter().cycle().take(len).collect::<Vec<u8>>();
    patch(layout, &mut vec![0; entries], offset, &mut nops(old), &nops(new))
}

#[test]
fn layout_length_and_place_in_order() {
    let high = Layout { code_start: (1 << 30) - 16, ..LAYOUT };
    assert_eq!(placed(&high, 8, 1, 0, 0), refused(1));
    assert_eq!(placed(&high, 4, 0, 16, 16), Outcome::Accepted);
    for entries in [0, 3, 6, 16_388] {
        assert_eq!(placed(&LAYOUT, entries, 1, 0, 0), refused(2), "{entries}");
    }
    assert_eq!(placed(&LAYOUT, 16_384, 65_520, 16, 16), Outcome::Accepted);
    for (offset, old, new) in [
        (0, 0, 0),
        (0, 15, 15),
        (0, 20, 20),
        (0, 16, 32),
        (0, 32, 16),
        (8, 16, 16),
        (16, 32, 32),
        (32, 16, 16),
        (usize::MAX - 15, 16, 16),
        (usize::MAX - 15, 32, 32),
        (usize::MAX, 16, 16),
        (1 << 32, 16, 16),
    ] {
        assert_eq!(placed(&LAYOUT, 8, offset, old, new), refused(12), "{offset} {old} {new}");
    }
    assert_eq!(placed(&LAYOUT, 8, 0, 32, 32), Outcome::Accepted);
}

#[test]
fn counts_past_the_number_of_words() {
    let state = State::checked(&[N; 8]);
    // 8 landings on a word of 8 are believed, 9 are not: inside the patch and out.
    for word in [1, 5] {
        let full = state.clone().with_entry(word, 4 * 8);
        assert_eq!(full.patch(0, &[N]), Ok((full.code.clone(), full.ledger.clone())));
        assert_eq!(state.clone().with_entry(word, 4 * 9).patch(0, &[N]), Err(refused(13)));
        assert_eq!(state.clone().with_entry(word, !3).patch(0, &[N]), Err(refused(13)));
        // One more branch is too many, even one that breaks another rule.
        assert_eq!(full.patch(0, &[to(0, word as u32)]), Err(refused(13)));
        assert_eq!(full.patch(0, &[to(0, word as u32) | 1 << 24, !0]), Err(refused(13)));
        // But one may take the place of another.
        let swapped = full.with_old(0, to(0, word as u32));
        assert_eq!(swapped.patch(0, &[N, to(1, word as u32)]).unwrap().1, swapped.ledger);
    }
}

#[test]
fn old_bundles_against_the_ledger() {
    let pair = [mask(14, 0, 0x103), access(14, P, 0, 1, 0)];
    let state = State::checked(&[N, N, N, N, pair[0], pair[1], to(6, 0), N]);
    assert_eq!(state.ledger, [4, 0, 0, 0, 0, 1, 0, 0]);
    // Roles inside the patch must agree, those outside are taken as they are.
    for role in [0, 2, 3] {
        let changed = state.clone().with_entry(5, role);
        assert_eq!(changed.patch(4, &[N]), Err(refused(13)));
        assert!(changed.patch(0, &[N]).is_ok());
    }
    assert_eq!(state.clone().with_old(4, N).patch(4, &[N]), Err(refused(13)));
    assert_eq!(state.clone().with_old(4, HEAD).patch(4, &[N]), Err(refused(13)));
    // More old branches than the count.
    assert_eq!(state.clone().with_entry(0, 0).patch(4, &[N]), Err(refused(13)));
    assert_eq!(state.clone().with_old(7, to(7, 0)).patch(4, &[N]), Err(refused(13)));
    assert_eq!(state.patch(4, &[N]).unwrap().1, [0; 8]);
}

#[test]
fn data_words_are_no_branches() {
    let state = State::checked(&[HEAD, to(1, 4), to(2, 4), to(3, 5), N]);
    assert_eq!(state.patch(0, &[N]).unwrap().1, [0; 8]);
    let state = State::checked(&[N; 8]);
    let (code, ledger) = state.patch(4, &[HEAD, to(5, 0), to(6, 0), !0]).unwrap();
    assert_eq!(ledger, [0, 0, 0, 0, 3, 2, 2, 2]);
    assert_eq!(answer(&LAYOUT, &code), Ok(ledger));
}

#[test]
fn roles_come_from_the_patch_and_the_ledger() {
    let pair = [mask(14, 0, 0x103), access(14, P, 0, 1, 0)];
    let state = State::checked(&[N, N, N, N, pair[0], pair[1], N, N]);
    assert_eq!(state.patch(0, &[N, to(1, 5)]), Err(refused_at(11, START + 4)));
    assert_eq!(state.patch(4, &[N, to(5, 5)]).unwrap().1, [0, 0, 0, 0, 0, 4, 0, 0]);
    let inner = [to(0, 2), pair[0], pair[1]];
    assert_eq!(state.patch(0, &inner), Err(refused_at(11, START)));
    // Outside, a role the code does not bear out still decides.
    let believed = state.clone().with_entry(5, 0);
    assert_eq!(believed.patch(0, &[N, to(1, 5)]).unwrap().1, [0, 0, 0, 0, 0, 4, 0, 0]);
}

#[test]
fn places_are_those_of_the_region() {
    let state = State::checked(&[N; 12]);
    let load = |from: u32| literal(14, 1, START + 16, i64::from(START + from));
    assert!(state.patch(4, &[load(0)]).is_ok());
    assert!(state.patch(4, &[load(44)]).is_ok());
    assert_eq!(state.patch(4, &[load(48)]), Err(refused_at(10, START + 16)));
    assert_eq!(state.patch(4, &[N, N, to(6, 12)]), Err(refused_at(11, START + 24)));
    let call = |own: u32| to(own, 0) | 1 << 24;
    assert_eq!(state.patch(4, &[N, N, N, call(7)]).unwrap().1[0], 4);
    assert_eq!(state.patch(4, &[N, N, call(6)]), Err(refused_at(9, START + 24)));
}

#[test]
fn stranded_branches() {
    let state = State::checked(&[to(0, 5), to(1, 6), to(2, 4), N, N, N, N, to(7, 7)]);
    let inner = [mask(14, 0, 0x103), access(14, P, 0, 1, 0)];
    assert_eq!(state.patch(4, &inner), Err(refused_at(14, START + 20)));
    // A head may be landed on, its data may not.
    assert_eq!(state.patch(4, &[HEAD, 0, 0, 0]), Err(refused_at(14, START + 20)));
    // 14 comes after every other rule, at any address.
    let late = [inner[0], inner[1], N, !0];
    assert_eq!(state.patch(4, &late), Err(no_class(Why::Condition, START + 28)));
    // The patch's own old branches strand nobody.
    let own = State::checked(&[N, N, N, N, to(4, 5), N, N, N]);
    assert_eq!(own.patch(4, &inner).unwrap().1, [0, 0, 0, 0, 0, 1, 0, 0]);
    // Outside the patch a count on an inner word is nobody's fault.
    let odd = State::checked(&[N; 8]).with_entry(6, 4 + 1);
    assert_eq!(odd.patch(0, &[N]).unwrap().1, odd.ledger);
}

#[test]
fn ledgers_from_before_request_3() {
    for first in [mask_from(14, 0, SP, 0x103), mask(14, SP, 0x13F)] {
        let state = State::checked(&[first, mask(14, SP, 0x103), N, N, N]);
        assert_eq!(state.ledger, [0; 8]);
        assert_eq!(state.patch(0, &[N]).unwrap().1, [0; 8]);
        assert_eq!(state.patch(4, &[to(4, 1)]).unwrap().1, [0, 4, 0, 0, 0, 0, 0, 0]);
        // The second mask closed the first, which was not exact.
        let old = state.with_entry(1, 1);
        assert_eq!(old.patch(0, &[N]), Err(refused(13)));
        assert_eq!(old.patch(0, &old.code[..4]), Err(refused(13)));
        // Outside the patch it is believed still.
        assert_eq!(old.patch(4, &[N]).unwrap().1, old.ledger);
        assert_eq!(old.patch(4, &[to(4, 1)]), Err(refused_at(11, START + 16)));
    }
}

#[test]
fn stranded_by_wider_masks() {
    let state = State::checked(&[to(0, 5), N, N, N, N]);
    let store = access(14, P, 0, 1, 0);
    for first in [mask(14, 0, 0x13F), mask_from(14, 1, 0, 0x103)] {
        assert_eq!(state.patch(4, &[first, store]), Err(refused_at(14, START + 20)));
    }
    assert_eq!(state.patch(4, &[mask(14, 0, 0x102), store]), Err(refused_at(7, START + 20)));
    // Nobody is stranded on the second of two masks of r13.
    let masks = [mask_from(14, 0, SP, 0x103), mask(14, SP, 0x103)];
    assert_eq!(state.patch(4, &masks).unwrap().1, state.ledger);
}
