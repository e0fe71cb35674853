//! A second, plain reading of document 01, and of requests 1, 3 and 6 of document
//! 02: the check and the patch of a region of 32-bit ARM code, written from the
//! papers alone.
//!
//! With the feature `awl`, and `patch` once the library has its patch call, the
//! programs `compare`, `exhaustive` and `bench` set it beside the library that
//! stands in the directory `AWL_LIB_DIR`:
//!
//! ```text
//! AWL_LIB_DIR=... cargo run --release --features patch --bin compare
//! ```
//!
//! `vectors` needs no library: it writes calls and their answers, which
//! `box/replay.c` puts to the library on another machine.

#[cfg(feature = "awl")]
pub mod awl;
mod bundle;
mod check;
pub mod families;
mod layout;
mod ledger;
pub mod make;
mod outcome;
mod pair;
mod patch;
pub mod regions;
pub mod rng;
pub mod rows;
mod rules;
mod survey;
pub mod word;

pub use check::check;
pub use layout::{Layout, BUNDLE, CODE_LIMIT, SANDBOX_END, TRAMPOLINES, WORD};
pub use outcome::Outcome;
pub use patch::patch;
pub use word::Why;
