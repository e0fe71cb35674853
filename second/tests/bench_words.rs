//! Every statement of document 01's "Words from the bench", and the words given
//! for requests 1, 3 and 6 of document 02.

mod common;

use common::answer_to_bytes;
use second::rows::{checks, patches};
use second::Outcome;

#[test]
fn regions() {
    for row in checks() {
        let answer = answer_to_bytes(&row.call.layout, &row.call.code);
        assert_eq!(answer, row.says, "{:02X?}", row.call.code);
    }
}

#[test]
fn bundles() {
    for row in patches() {
        let (outcome, after) = row.call.answer();
        match row.says {
            Ok(ledger) => {
                assert_eq!(outcome, Outcome::Accepted);
                assert_eq!((after.ledger, after.old), (ledger, after.new));
            }
            Err(refusal) => {
                assert_eq!(outcome, refusal);
                assert!(after == row.call);
            }
        }
    }
}
