//! Demand 3 on this program alone: patches against fresh checks.

mod common;

use common::answer;
use second::make::{bytes, words};
use second::regions::{edit, layout, part, region};
use second::rng::Rng;
use second::{patch, Outcome};

#[test]
fn regions_to_order_are_accepted() {
    let rng = &mut Rng::new(1);
    for _ in 0..2_000 {
        let bundles = 1 + rng.below(20);
        let layout = layout(rng, 16 * bundles);
        let words = region(rng, &layout, bundles);
        answer(&layout, &words).unwrap_or_else(|refusal| panic!("{refusal:?} {words:08X?}"));
    }
}

#[test]
fn patches_equal_fresh_checks() {
    let rng = &mut Rng::new(3);
    let (mut accepted, mut stranded) = (0, 0);
    for _ in 0..400 {
        let bundles = 1 + rng.below(6);
        let layout = layout(rng, 16 * bundles);
        let mut code = region(rng, &layout, bundles);
        let mut ledger = answer(&layout, &code).unwrap();
        for _ in 0..12 {
            let part = part(rng, code.len());
            let edited = edit(rng, &layout, &code, part.clone());
            let mut old = bytes(&code[part.clone()]);
            let new = bytes(&edited[part.clone()]);
            let before = ledger.clone();
            let outcome = patch(&layout, &mut ledger, 4 * part.start, &mut old, &new);
            code[part].copy_from_slice(&words(&old));
            match (outcome, answer(&layout, &edited)) {
                (Outcome::Accepted, Ok(fresh)) => {
                    assert_eq!((&ledger, &code), (&fresh, &edited));
                    accepted += 1;
                }
                (Outcome::Refused { number, .. }, Err(_)) => {
                    assert_eq!(ledger, before);
                    assert_ne!(code, edited);
                    assert!(number != 12 && number != 13);
                    stranded += usize::from(number == 14);
                }
                both => panic!("{both:?}"),
            }
        }
    }
    assert!(accepted > 500 && stranded > 100, "{accepted} {stranded}");
}
