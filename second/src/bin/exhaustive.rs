//! Every one of the 2^32 words, put to both programs: in slot 0 among nops; in
//! slot 1 behind a mask that fits it; where its bits could name r13 as the
//! register a data word writes, in slot 0 before a closing mask of r13; and where
//! they could be a mask or a test, in slot 0 before what that would guard.
//!
//! `exhaustive [--threads n] [--part i/n]`, parts counted from 1

use second::make::*;
use second::regions::BENCH_LAYOUT as LAYOUT;
use second::{awl, check, Outcome, Why};
use std::ops::Range;
use std::process::ExitCode;
use std::sync::atomic::{AtomicU64, Ordering};
use std::thread;

/// Words a thread takes at a time.
const STRIDE: u64 = 1 << 20;
/// Words between two lines of progress.
const NEWS: u64 = 1 << 26;
const STALE: u32 = 0xA5A5_A5A5;

fn main() -> ExitCode {
    let Some((threads, part)) = options() else {
        eprintln!("exhaustive [--threads n] [--part i/n]");
        return ExitCode::from(2);
    };
    println!("words {:#010x} to {:#010x}, {threads} threads", part.start, part.end - 1);
    let next = AtomicU64::new(part.start);
    let work = || {
        let mut count = Count::default();
        while let Some(stride) = take(&next, &part) {
            if stride.start.is_multiple_of(NEWS) {
                println!("at {:#010x}", stride.start);
            }
            stride.for_each(|word| count.compare(word as u32));
        }
        count
    };
    let mut total = Count::default();
    thread::scope(|scope| {
        let workers: Vec<_> = (0..threads).map(|_| scope.spawn(work)).collect();
        workers.into_iter().for_each(|worker| total.add(&worker.join().expect("a worker ends")));
    });
    println!("in no class by why, 1 to 4: {:?}", total.whys);
    println!(
        "{} regions, {} accepted, {} differences",
        total.regions, total.accepted, total.differences
    );
    ExitCode::from(u8::from(total.differences != 0))
}

fn options() -> Option<(usize, Range<u64>)> {
    let mut threads = thread::available_parallelism().map_or(1, |count| count.get());
    let mut part = (1, 1);
    let mut arguments = std::env::args().skip(1);
    while let Some(argument) = arguments.next() {
        let value = arguments.next()?;
        match argument.as_str() {
            "--threads" => threads = value.parse().ok()?,
            "--part" => {
                let (place, parts) = value.split_once('/')?;
                part = (place.parse().ok()?, parts.parse().ok()?);
            }
            _ => return None,
        }
    }
    let (place, parts): (u64, u64) = part;
    let bound = |place: u64| (place << 32) / parts;
    (threads > 0 && (1..=parts).contains(&place) && parts <= 1 << 20)
        .then(|| (threads, bound(place - 1)..bound(place)))
}

/// The next stride of a part, until none is left.
fn take(next: &AtomicU64, part: &Range<u64>) -> Option<Range<u64>> {
    let start = next.fetch_add(STRIDE, Ordering::Relaxed);
    (start < part.end).then(|| start..part.end.min(start + STRIDE))
}

#[derive(Default)]
struct Count {
    regions: u64,
    accepted: u64,
    /// Refused with 4, by the why.
    whys: [u64; Why::ALL.len()],
    differences: u64,
}

impl Count {
    fn add(&mut self, other: &Count) {
        self.regions += other.regions;
        self.accepted += other.accepted;
        self.whys.iter_mut().zip(other.whys).for_each(|(sum, count)| *sum += count);
        self.differences += other.differences;
    }

    fn compare(&mut self, word: u32) {
        self.put([word, NOP, NOP, NOP]);
        self.put([fitting_mask(word), word, NOP, NOP]);
        if word >> 26 & 3 == 0 && word >> 12 & 15 == SP {
            self.put([word, mask(word >> 28, SP, DATA_BITS[0]), NOP, NOP]);
        }
        if word >> 25 & 7 == 1 {
            guarded(word).into_iter().for_each(|second| self.put([word, second, NOP, NOP]));
        }
    }

    fn put(&mut self, words: [u32; 4]) {
        let code = words.map(u32::to_le_bytes);
        let mut lent = code;
        let (mut own_ledger, mut ledger) = ([STALE; 4], [STALE; 4]);
        let own = check(&LAYOUT, code.as_flattened(), &mut own_ledger);
        let theirs = awl::check(&LAYOUT, lent.as_flattened_mut(), &mut ledger);
        let accepted = own == Outcome::Accepted;
        let kept = accepted || own_ledger == [STALE; 4];
        let same = own == theirs && own_ledger == ledger && kept && lent == code;
        self.regions += 1;
        self.accepted += u64::from(accepted);
        own.why().iter().for_each(|&why| self.whys[why as usize - 1] += 1);
        self.differences += u64::from(!same);
        if !same && self.differences <= 5 {
            println!("{words:08x?}: own {own:?} {own_ledger:?}, library {theirs:?} {ledger:?}");
        }
    }
}

/// The guard of the word, unless that is refused itself and so hides the word:
/// a mask of r9 or r15, any with condition 15.
fn fitting_mask(word: u32) -> u32 {
    let guard = guard(word);
    let hides = matches!(guard >> 12 & 15, R9 | PC) || guard >> 28 == 15;
    if hides {
        mask(ALWAYS, 0, DATA_BITS[0])
    } else {
        guard
    }
}

/// What the word would guard, were it a data mask, a branch mask, a test.
fn guarded(word: u32) -> [u32; 3] {
    let (condition, rn, rd) = (word >> 28, word >> 16 & 15, word >> 12 & 15);
    [
        access(condition, P | U, rd, 1, 0),
        register_branch(condition, false, rd),
        access(EQUAL, P | U, rn, 1, 0),
    ]
}
