//! What the tests share: regions as words, answers as the paper writes them.
#![allow(dead_code)] // each test file uses its part

use second::families::Case;
use second::make::{bytes, padded, words};
use second::{check, regions, Layout, Outcome, Why};

pub use second::regions::BENCH_LAYOUT as LAYOUT;

/// A filling no check writes.
pub const STALE: u32 = 0xA5A5_A5A5;

pub fn refused(number: u32) -> Outcome {
    Outcome::Refused { number, why: None, address: None }
}

pub fn refused_at(number: u32, address: u32) -> Outcome {
    Outcome::Refused { number, why: None, address: Some(address) }
}

/// Number 4 at an address, and why.
pub fn no_class(why: Why, address: u32) -> Outcome {
    Outcome::Refused { number: 4, why: Some(why), address: Some(address) }
}

pub fn answer(layout: &Layout, words: &[u32]) -> Result<Vec<u32>, Outcome> {
    answer_to_bytes(layout, &bytes(&padded(words)))
}

/// The answer, and the ledger of an accepted region. A refusal must leave the
/// ledger as it was.
pub fn answer_to_bytes(layout: &Layout, code: &[u8]) -> Result<Vec<u32>, Outcome> {
    let mut ledger = vec![STALE; code.len() / 4];
    match check(layout, code, &mut ledger) {
        Outcome::Accepted => Ok(ledger),
        refusal => {
            assert!(ledger.iter().all(|&entry| entry == STALE));
            Err(refusal)
        }
    }
}

/// The answer to a case with another word in one place.
pub fn mended(case: &Case, place: usize, word: u32) -> Outcome {
    let mut code = words(&case.code);
    code[place] = word;
    answer(&case.layout, &code).map_or_else(|refusal| refusal, |_| Outcome::Accepted)
}

pub fn accepts(words: &[u32], ledger: &[u32]) {
    assert_eq!(answer(&LAYOUT, words), Ok(ledger.to_vec()), "{words:08X?}");
}

pub fn refuses(words: &[u32], number: u32, address: u32) {
    assert_eq!(answer(&LAYOUT, words), Err(refused_at(number, address)), "{words:08X?}");
}

pub fn in_no_class(words: &[u32], why: Why, address: u32) {
    assert_eq!(answer(&LAYOUT, words), Err(no_class(why, address)), "{words:08X?}");
}

/// The roles of the words, as the ledger has them, whatever rule they break.
pub fn roles(words: &[u32]) -> Vec<u32> {
    regions::roles(&padded(words)).into_iter().map(|role| role as u32).collect()
}
