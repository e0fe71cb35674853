//! Request 6 at the edges of its rule: every why, their order, where they stand
//! among other faults, and how an answer holds them.

mod common;

use common::{accepts, answer, in_no_class, no_class, refused, refused_at, refuses, LAYOUT, STALE};
use second::families::{of_patches, of_regions};
use second::make::*;
use second::word::read;
use second::Why::{self, *};
use second::{check, patch, Layout, Outcome};

const N: u32 = NOP;
const START: u32 = 131_072;
/// The last word of the sandbox.
const TOP: u32 = (1 << 30) - 4;

/// One word for each why.
const EACH: [(Why, u32); 4] = [
    (Condition, 0xF3C0_0103),
    (SystemCall, 0xEF00_0000),
    (RegisterIndexed, 0xE780_1002),
    (Unlisted, 0xE7F0_00F0),
];

/// The request's sentence: condition 15, bits 27..24 = 15, bits 27..25 = 011 with
/// bit 4 = 0, or unlisted, in that order.
fn expected(word: u32) -> Why {
    let holds =
        [word >> 28 == 0xF, word & 0x0F00_0000 == 0x0F00_0000, word & 0x0E00_0010 == 0x0600_0000];
    let whys = [Condition, SystemCall, RegisterIndexed];
    holds.into_iter().zip(whys).find(|(holds, _)| *holds).map_or(Unlisted, |(_, why)| why)
}

/// Every condition, bits 27..20 and bits 7..4; the other bits filled.
fn all_words(filling: u32) -> impl Iterator<Item = u32> {
    let bits = |word: u32| (word & 0xFFF) << 20 | (word >> 12) << 4;
    (0..1 << 16).map(move |word| bits(word) | filling & 0x000F_FF0F)
}

#[test]
fn every_condition_and_class() {
    let mut met = [[0; 4]; 4];
    for filling in [0, 0x000F_FF0F, 0x0001_2003, 0x000D_0F00] {
        for (slot, word) in (0..4).flat_map(|slot| all_words(filling).map(move |word| (slot, word)))
        {
            let mut words = [N; 4];
            words[slot] = word;
            let code = words.map(u32::to_le_bytes);
            let outcome = check(&LAYOUT, code.as_flattened(), &mut [STALE; 4]);
            let why = expected(word);
            // Nothing listed has one of the first three.
            if why != Unlisted || outcome.number() == 4 {
                assert_eq!(outcome, no_class(why, START + 4 * slot as u32), "{word:08X}");
                met[slot][why as usize - 1] += 1;
            }
            assert_eq!(outcome.why().is_some(), outcome.number() == 4, "{word:08X}");
            assert_eq!(read(word).why(), outcome.why(), "{word:08X}");
        }
    }
    // Of 2^16: one condition of 16; of the others one in 16 of bits 27..24; and one
    // in 8 of bits 27..25 with half of bits 7..4.
    for whys in met {
        assert_eq!(whys[..3], [4_096, 3_840, 3_840].map(|count| 4 * count));
        assert_eq!(whys, met[0]);
    }
}

#[test]
fn numbers() {
    assert_eq!(Why::ALL.map(|why| why as u32), [1, 2, 3, 4]);
    assert_eq!(EACH.map(|(why, _)| why), Why::ALL);
}

#[test]
fn the_first_that_holds() {
    for condition in 0..16 {
        let or = |why| if condition == 15 { Condition } else { why };
        for low in [0, 0x10, 0xFF_FFEF, 0xFF_FFFF] {
            in_no_class(&[system_call(condition, low)], or(SystemCall), START);
            in_no_class(&[coprocessor(condition, 2, low)], or(Unlisted), START);
        }
        for letters in 0..32 {
            let access = |low| indexed_access(condition, letters, 13, 1, low);
            in_no_class(&[access(0xF82)], or(RegisterIndexed), START);
            in_no_class(&[access(0xF92)], or(Unlisted), START);
        }
    }
}

#[test]
fn the_head_in_every_slot() {
    accepts(&[HEAD], &[3, 2, 2, 2]);
    accepts(&[HEAD, EACH[0].1, EACH[1].1, HEAD], &[3, 2, 2, 2]);
    for slot in 1..4 {
        let mut words = [N; 4];
        words[slot] = HEAD;
        in_no_class(&words, Unlisted, START + 4 * slot as u32);
        words[0] = HEAD ^ 1 << 29;
        in_no_class(&words, Unlisted, START);
        words[0] = HEAD | 1 << 28;
        in_no_class(&words, Condition, START);
    }
}

#[test]
fn guards_and_pairs_do_not_count() {
    for (why, word) in EACH {
        // Behind what would guard an access on r0, before a closing mask.
        in_no_class(&[mask(14, 0, 0x103), word, mask(14, SP, 0x103)], why, START + 4);
        // A word in no class is plain.
        in_no_class(&[branch(14, false, START, i64::from(START) + 4), word], why, START + 4);
        let off = Layout { test_pairs: false, ..LAYOUT };
        assert_eq!(answer(&off, &[N, word]), Err(no_class(why, START + 4)));
    }
}

#[test]
fn among_other_faults() {
    let store = access(14, P, 0, 1, 0);
    let astray = branch(14, false, START, 0);
    for (why, word) in EACH {
        refuses(&[store, word], 7, START);
        in_no_class(&[word, store], why, START);
        refuses(&[astray, word], 11, START);
        in_no_class(&[word, astray], why, START);
        // Whose target's role breaks the rule: the lower address still comes first.
        let pair = [mask(14, 0, 0x103), store];
        let to =
            |own: u32, word: u32| branch(14, false, START + 4 * own, i64::from(START + 4 * word));
        refuses(&[to(0, 5), word, N, N, pair[0], pair[1]], 11, START);
        in_no_class(&[word, to(1, 5), N, N, pair[0], pair[1]], why, START);
        for (other, second) in EACH {
            in_no_class(&[N, word, second], why, START + 4);
            in_no_class(&[N, N, N, second, word], other, START + 12);
        }
    }
}

/// The answer to a patch of the second of two bundles of nops, one branch landing
/// on its word 1; it must change nothing.
fn patched(new: &[u32], entry: u32) -> Outcome {
    let ledger = [0, 0, 0, 0, entry, 4, 0, 0];
    let (mut after, mut old) = (ledger, bytes(&[N; 4]));
    let outcome = patch(&LAYOUT, &mut after, 16, &mut old, &bytes(&padded(new)));
    assert_ne!(outcome, Outcome::Accepted);
    assert_eq!((after, old), (ledger, bytes(&[N; 4])));
    outcome
}

#[test]
fn patches() {
    let pair = [mask(14, 0, 0x103), access(14, P, 0, 1, 0)];
    for (why, word) in EACH.into_iter().chain([(Unlisted, HEAD)]) {
        for slot in 1..4 {
            let mut new = [N; 4];
            new[slot] = word;
            assert_eq!(patched(&new, 0), no_class(why, START + 16 + 4 * slot as u32));
            // 13 comes before, and 14 after whatever the address.
            assert_eq!(patched(&new, 1), refused(13));
            new[..2].copy_from_slice(&pair);
            if slot > 1 {
                assert_eq!(patched(&new, 0), no_class(why, START + 16 + 4 * slot as u32));
            }
            new[0] = pair[1];
            assert_eq!(patched(&new, 0), refused_at(7, START + 16));
        }
    }
    for (why, word) in EACH {
        assert_eq!(patched(&[word, !0], 0), no_class(why, START + 16));
    }
    assert_eq!(patched(&pair, 0), refused_at(14, START + 20));
}

/// Bits 7..0 the number, 15..8 the why, 31..16 none, and the address above.
fn is_well_made(outcome: Outcome) {
    let answer = outcome.answer();
    let [number, why, empty] = [answer & 0xFF, answer >> 8 & 0xFF, answer >> 16 & 0xFFFF];
    assert_eq!(number, u64::from(outcome.number()));
    assert_eq!((1..=4).contains(&why), number == 4, "{outcome:?}");
    assert!(why <= 4 && empty == 0, "{outcome:?}");
    let has_address = matches!(number, 4..=11 | 14);
    assert_eq!(answer >> 32 != 0, has_address, "{outcome:?}");
}

#[test]
fn no_other_number_has_a_why() {
    for (family, mut rng, share) in of_regions(6, 4_000) {
        for _ in 0..share {
            let case = (family.make)(&mut rng);
            is_well_made(check(&case.layout, &case.code, &mut case.stale(&mut rng)));
        }
    }
    for (family, mut rng, share) in of_patches(6, 1_000) {
        for call in (0..share).flat_map(|_| (family.make)(&mut rng)) {
            is_well_made(call.answer().0);
        }
    }
}

#[test]
fn packing() {
    let top = Layout { code_start: TOP - 12, ..LAYOUT };
    for (number, (why, word)) in (1..).zip(EACH) {
        let last = answer(&top, &[N, N, N, word]).unwrap_err();
        assert_eq!(last, no_class(why, TOP));
        assert_eq!(last.answer(), 0x3FFF_FFFC_0000_0004 | number << 8);
        let first = answer(&LAYOUT, &[word]).unwrap_err();
        assert_eq!(first.answer(), 0x0002_0000_0000_0004 | number << 8);
        assert_eq!(no_class(why, u32::MAX).answer(), 0xFFFF_FFFF_0000_0004 | number << 8);
    }
    assert_eq!(refused_at(5, TOP).answer(), 0x3FFF_FFFC_0000_0005);
    assert_eq!(refused(13).answer(), 13);
    assert_eq!(Outcome::Accepted.answer(), 0);
}

/// An answer loses no bit, however ill made, so that none passes for another.
#[test]
fn unpacking() {
    for low in 0..1 << 16 {
        for high in [0, 1, 1 << 15, 0xFFFF] {
            for address in [0, u64::from(START), u64::from(TOP), 1 << 31, u64::from(u32::MAX)] {
                let answer = address << 32 | high << 16 | low;
                assert_eq!(Outcome::of(answer).answer(), answer, "{answer:016X}");
            }
        }
    }
    for outcome in [Outcome::Accepted, refused(13), refused_at(5, TOP)] {
        assert_eq!(Outcome::of(outcome.answer()), outcome);
    }
    for why in Why::ALL {
        assert_eq!(Outcome::of(no_class(why, TOP).answer()), no_class(why, TOP));
    }
    // Without a why, with one too high, beside another number, with more above.
    for low in [0x004, 0x504, 0x105, 0x100, 0x1_0104, 0x8000_0104] {
        let outcome = Outcome::of(u64::from(START) << 32 | low);
        assert!(Why::ALL.iter().all(|&why| outcome != no_class(why, START)), "{low:X}");
        assert!(
            (0..=14).all(|number| number == 4 || outcome != refused_at(number, START)),
            "{low:X}"
        );
    }
}
