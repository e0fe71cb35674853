//! What the families make of request 3: masks and tests of every sound make, and
//! with but one thing wrong.

use crate::common::{mended, roles};
use second::families::patches::Call;
use second::families::Case;
use second::make::{words, BRANCH_BITS, DATA_BITS};

const PLAIN: u32 = 0;
const INNER: u32 = 1;
const ACCEPTED: u32 = 0;

/// What masks and tests are for, and how each is made in accepted code.
const SOUND: [(&str, &[&str]); 5] = [
    ("data mask", &["exact", "of more bits", "from r13", "from another"]),
    ("branch mask", &["exact", "of more bits", "from r13", "from another"]),
    ("closing mask", &["exact", "of more bits", "from another"]),
    ("exempt mask", &["exact", "of more bits", "from another"]),
    ("test", &["exact", "of more bits"]),
];

/// A mask or test that misses: the refusal, where the mask stands from the word
/// refused, who is meant, and what mends the mask, given that word.
type Near = (&'static str, u32, isize, fn(u32) -> bool, fn(u32, u32) -> u32);

const NEAR: [Near; 11] = [
    ("data mask of fewer bits", 7, -1, is_bic, |_, m| low(m, 0x103)),
    ("branch mask of fewer bits", 8, -1, is_bic, |_, m| low(m, 0x13F)),
    ("closing mask of fewer bits", 6, 1, is_bic, |_, m| low(m, 0x103)),
    ("exempt mask of fewer bits", 6, 0, is_bic, |_, m| low(m, 0x103)),
    ("test of fewer bits", 7, -1, is_tst, |_, m| low(m, 0x103)),
    ("data mask into another", 7, -1, is_bic, |w, m| into(m, rn(w))),
    ("branch mask into another", 8, -1, is_bic, |w, m| into(m, w & 15)),
    ("closing mask into another", 6, 1, is_bic, |_, m| into(m, 13)),
    ("test of another", 7, -1, is_tst, |w, m| from(m, rn(w))),
    ("closing mask from r9 or r15", 6, 1, is_bic, |_, m| from(m, 13)),
    ("exempt mask from r9 or r15", 5, 0, is_bic_of_r13, |_, m| from(m, 13)),
];

/// A role that only a landing tells: the answer's number, and that with the word
/// in a place mended; who is meant, and what mends the word.
type Told = (&'static str, [u32; 2], fn(&[u32], usize) -> bool, fn(u32) -> u32);

const TOLD: [Told; 7] = [
    ("access behind r9 or r15", [5, 11], is_access_mask, |m| from(m, 13)),
    ("register branch behind r9 or r15", [5, 11], is_branch_mask, |m| from(m, 13)),
    ("closing mask behind r9 or r15", [11, ACCEPTED], is_mask_twice, |m| from(m, 13)),
    ("access on r9 behind r9", [5, 11], is_mask_of_r9, |m| from(m, 13)),
    ("access on r9 behind a mask", [11, 5], is_mask_of_r9, |m| from(m, 9)),
    ("access on r9 behind a test", [11, 5], is_test_of_r9, |m| low(m, 0x102)),
    ("register branch behind a closing mask", [11, 6], is_two_pairs, |m| low(m, 0x103)),
];

/// Old words of a patch whose roles request 3 changed, with the ledger of today or
/// of before.
const OLD: [&str; 3] = ["two pairs of today", "two masks of today", "two masks of before"];

/// What single words are guarded by, or almost.
const GUARDS: [&str; 6] = [
    "data mask exact",
    "data mask of more bits",
    "data mask from another",
    "data mask of fewer bits",
    "test exact",
    "test of more bits",
];

pub fn guard_names() -> impl Iterator<Item = String> {
    GUARDS.into_iter().map(str::to_string)
}

pub fn sound_names() -> impl Iterator<Item = String> {
    SOUND.iter().flat_map(|(what, makes)| makes.iter().map(move |make| format!("{what} {make}")))
}

pub fn near_names() -> impl Iterator<Item = String> {
    NEAR.iter().map(|near| near.0).chain(TOLD.iter().map(|told| told.0)).map(str::to_string)
}

pub fn old_names() -> impl Iterator<Item = String> {
    OLD.into_iter().map(str::to_string)
}

/// Names the mask or test that a word of accepted code is or has before it.
pub fn sound(before: u32, word: u32, role: u32) -> Option<String> {
    let (what, mask) = match role {
        INNER if is_bic(word) => ("closing mask", word),
        INNER if is_tst(before) => ("test", before),
        INNER if is_register_branch(word) => ("branch mask", before),
        INNER => ("data mask", before),
        PLAIN if is_bic_of_r13(word) => ("exempt mask", word),
        _ => return None,
    };
    let needed: &[u32] = if what == "branch mask" { &BRANCH_BITS } else { &DATA_BITS };
    Some(format!("{what} {}", make(mask, needed)))
}

fn make(mask: u32, needed: &[u32]) -> &'static str {
    let own = is_tst(mask) || rn(mask) == rd(mask);
    match (own, rn(mask)) {
        (true, _) if needed.contains(&(mask & 0xFFF)) => "exact",
        (true, _) => "of more bits",
        (false, 13) => "from r13",
        (false, _) => "from another",
    }
}

/// Names the masks that alone keep a region out, and the roles that tell.
pub fn near(case: &Case, number: u32, place: usize) -> Vec<&'static str> {
    let code = words(&case.code);
    let misses = NEAR.iter().filter(|&&(_, refusal, from, is, mend)| {
        let at = place.wrapping_add_signed(from);
        let mends = |&mask: &u32| mended(case, at, mend(code[place], mask)).number() == ACCEPTED;
        refusal == number && code.get(at).is_some_and(|mask| is(*mask) && mends(mask))
    });
    let tells = TOLD.iter().filter(|&&(_, [now, then], is, mend)| {
        let turns = |at| is(&code, at) && mended(case, at, mend(code[at])).number() == then;
        now == number && (0..code.len() - 1).any(turns)
    });
    misses.map(|near| near.0).chain(tells.map(|told| told.0)).collect()
}

/// Names the old words whose roles the answer to a patch goes by.
pub fn old(call: &Call, number: u32) -> Option<&'static str> {
    let code = words(&call.old);
    let mut places = 0..code.len().saturating_sub(1);
    let agreed = matches!(number, ACCEPTED | 4..=11 | 14);
    match places.clone().find(|&at| is_freed(&code, at)) {
        Some(_) if agreed => Some("two masks of today"),
        Some(at) if number == 13 && is_mended(call, at + 1) => Some("two masks of before"),
        None if agreed && places.any(|at| is_two_pairs(&code, at)) => Some("two pairs of today"),
        _ => None,
    }
}

/// Whether the ledger calls an old word inner, and would agree if it did not.
fn is_mended(call: &Call, place: usize) -> bool {
    let mut fresh = call.clone();
    let entry = &mut fresh.ledger[call.offset / 4 + place];
    let is_inner = *entry % 4 == INNER;
    *entry ^= INNER;
    is_inner && fresh.answer().0.number() != 13
}

fn is_access_mask(code: &[u32], place: usize) -> bool {
    is_bic(code[place]) && is_access(code[place + 1])
}

fn is_mask_of_r9(code: &[u32], place: usize) -> bool {
    is_access_mask(code, place) && rd(code[place]) == 9
}

fn is_test_of_r9(code: &[u32], place: usize) -> bool {
    is_tst(code[place]) && rn(code[place]) == 9
}

fn is_branch_mask(code: &[u32], place: usize) -> bool {
    is_bic(code[place]) && is_register_branch(code[place + 1])
}

fn is_mask_twice(code: &[u32], place: usize) -> bool {
    is_bic_of_r13(code[place]) && is_bic_of_r13(code[place + 1])
}

/// Whether the second of two masks in a bundle closed the first before request 3
/// and does so no more.
fn is_freed(code: &[u32], place: usize) -> bool {
    let [first, second] = [code[place], code[place + 1]];
    let exact = |mask| make(mask, &DATA_BITS) == "exact";
    let closed = place % 4 != 3 && first >> 28 == second >> 28 && !exact(first) && exact(second);
    is_mask_twice(code, place) && closed && roles(code)[place + 1] == PLAIN
}

/// Whether a mask closes a pair, and a register branch behind it closes another.
fn is_two_pairs(code: &[u32], place: usize) -> bool {
    is_branch_mask(code, place) && roles(code)[place..place + 2] == [INNER, INNER]
}

fn is_bic(word: u32) -> bool {
    word >> 20 & 0xFF == 0x3C
}

fn is_bic_of_r13(word: u32) -> bool {
    is_bic(word) && rd(word) == 13
}

fn is_tst(word: u32) -> bool {
    word >> 20 & 0xFF == 0x31
}

/// An access of any kind, in its class or not.
fn is_access(word: u32) -> bool {
    match word >> 25 & 7 {
        0b000 => word & 0x90 == 0x90,
        class => matches!(class, 0b010 | 0b100),
    }
}

fn is_register_branch(word: u32) -> bool {
    word >> 4 & 0xFF_FFFD == 0x12_FFF1
}

fn rn(word: u32) -> u32 {
    word >> 16 & 15
}

fn rd(word: u32) -> u32 {
    word >> 12 & 15
}

/// The word with another Rn.
fn from(word: u32, rn: u32) -> u32 {
    word & !(15 << 16) | rn << 16
}

/// The word with another Rd.
fn into(word: u32, rd: u32) -> u32 {
    word & !(15 << 12) | rd << 12
}

/// The word with other low bits.
fn low(word: u32, low: u32) -> u32 {
    word & !0xFFF | low
}
