//! Times the library's check beside this program's on the same bytes.
//!
//! `bench [file.bin ...]`

use second::make::*;
use second::regions::{address, some_condition, some_data, BENCH_LAYOUT as LAYOUT, FREE};
use second::rng::Rng;
use second::{awl, check, Outcome, CODE_LIMIT};
use std::hint::black_box;
use std::process::ExitCode;
use std::time::{Duration, Instant};

/// Makes so many words to check.
type Make = fn(&mut Rng, usize) -> Vec<u32>;

const SIZES: [usize; 4] = [16, 256, 4_096, CODE_LIMIT];
const ROUNDS: usize = 15;
const ROUND: Duration = Duration::from_millis(10);

fn main() -> ExitCode {
    println!("Each buffer is checked by both before timing, so caches are warm.");
    println!("Best of {ROUNDS} rounds in turn, in nanoseconds per word.");
    println!("{:<24}{:>8}{:>10}{:>10}{:>8}", "content", "bytes", "library", "plain", "ratio");
    let contents: [(&str, Make); 4] = [
        ("nop-heavy", nop_heavy),
        ("data-heavy", data_heavy),
        ("access-heavy", access_heavy),
        ("branch-heavy", branch_heavy),
    ];
    let mut sound = true;
    for (name, make) in contents {
        for size in SIZES {
            let code = bytes(&make(&mut Rng::new(8), size / 4));
            sound &= run(name, code) == Some(Outcome::Accepted);
        }
    }
    for path in std::env::args().skip(1) {
        let code = std::fs::read(&path).expect("a readable file");
        sound &= run(&path, code).is_some();
    }
    ExitCode::from(u8::from(!sound))
}

/// Checks the code by both, then times them if it is accepted. Gives the
/// answer, or none where the two differ.
fn run(name: &str, mut code: Vec<u8>) -> Option<Outcome> {
    let words = code.len() / 4;
    let (mut own_ledger, mut ledger) = (vec![0; words], vec![0; words]);
    let own = check(&LAYOUT, &code, &mut own_ledger);
    let theirs = awl::check(&LAYOUT, &mut code, &mut ledger);
    if own != theirs || own_ledger != ledger {
        println!("{name:<24}{:>8}  differ: {own:?} and {theirs:?}", code.len());
        return None;
    }
    if own != Outcome::Accepted {
        println!("{name:<24}{:>8}  not timed: {own:?}", code.len());
        return Some(own);
    }
    let (mut library, mut plain) = (f64::MAX, f64::MAX);
    for _ in 0..ROUNDS {
        library = library.min(round(|| awl::check(&LAYOUT, black_box(&mut code), &mut ledger)));
        plain = plain.min(round(|| check(&LAYOUT, black_box(&code), &mut own_ledger)));
    }
    let [library, plain] = [library, plain].map(|time| time / words as f64);
    let (len, ratio) = (code.len(), library / plain);
    println!("{name:<24}{len:>8}{library:>10.2}{plain:>10.2}{ratio:>8.2}");
    Some(own)
}

/// Nanoseconds a call, over one round of calls.
fn round(mut call: impl FnMut() -> Outcome) -> f64 {
    let start = Instant::now();
    let mut calls = 0;
    loop {
        for _ in 0..8 {
            black_box(call());
        }
        calls += 8;
        let spent = start.elapsed();
        if spent >= ROUND {
            return spent.as_nanos() as f64 / f64::from(calls);
        }
    }
}

fn nop_heavy(rng: &mut Rng, words: usize) -> Vec<u32> {
    let moved = |rng: &mut Rng| data(ALWAYS, MOV, 0, 0, rng.pick(&FREE), rng.pick(&FREE));
    (0..words).map(|_| if rng.once_in(8) { moved(rng) } else { NOP }).collect()
}

/// Data words of every operation. In each bundle r13 is moved down or up, or has
/// bits cleared, by an immediate of any rotation, and its closing mask follows.
fn data_heavy(rng: &mut Rng, words: usize) -> Vec<u32> {
    let bundle = |rng: &mut Rng| {
        let (condition, operation) = (some_condition(rng), rng.pick(&[SUB, ADD, BIC]));
        let write = data(condition, operation, 0, SP, SP, IMMEDIATE | rng.word() & 0xFFF);
        let closing = mask(condition, SP, rng.pick(&DATA_BITS));
        [some_data(rng, condition), some_data(rng, condition), write, closing]
    };
    (0..words / 4).flat_map(|_| bundle(rng)).collect()
}

/// Guarded loads and stores, two to a bundle.
fn access_heavy(rng: &mut Rng, words: usize) -> Vec<u32> {
    let pair = |rng: &mut Rng| {
        let (condition, register) = (rng.pick(&[ALWAYS, ALWAYS, 1, 10]), rng.pick(&FREE));
        let mask = mask(condition, register, rng.pick(&DATA_BITS));
        let letters = P | rng.pick(&[0, U]) | rng.pick(&[0, B]) | rng.pick(&[0, L]);
        [mask, access(condition, letters, register, rng.pick(&FREE), rng.word())]
    };
    (0..words / 2).flat_map(|_| pair(rng)).collect()
}

/// Branches all over the region in three slots of four, calls in the last.
fn branch_heavy(rng: &mut Rng, words: usize) -> Vec<u32> {
    let to = |place: usize| {
        let own = address(&LAYOUT, place) as u32;
        branch(rng.pick(&[ALWAYS, 0, 1]), place % 4 == 3, own, address(&LAYOUT, rng.below(words)))
    };
    (0..words).map(to).collect()
}
