//! Writes calls, and what each must leave, for a program on another machine to
//! replay: the rows with the papers' answers, numbers past 32 bits, and random
//! regions and patches with this program's answers.
//!
//! `vectors [seed] [regions] [patches]`
//!
//! All numbers are little-endian. A call is
//!
//! - 1 for a check or 2 for a patch, code start, trampoline first and end, and
//!   the switch, 32 bits each;
//! - the offset and the lengths of ledger, bytes and new bytes, 64 bits each;
//! - the ledger, the bytes (the code or the old bundles) and the new bytes, as
//!   many as the low 32 bits of their length say;
//! - the answer, 64 bits: the number, the why from bit 8 and the address from bit
//!   32 up; and the ledger and the bytes afterwards.
//!
//! At the end stands a 0 of 32 bits and the number of calls, of 64.

use second::families::{self, argument, patches::Call, Case};
use second::make::NOP;
use second::regions::BENCH_LAYOUT;
use second::rows::{self, Row};
use second::{check, Layout, Outcome, Why};
use std::collections::BTreeSet;
use std::io::{self, BufWriter, Write};
use std::iter;

const END: u32 = 0;
const CHECK: u32 = 1;
const PATCH: u32 = 2;
const STALE: u32 = 0xA5A5_A5A5;

fn main() -> io::Result<()> {
    let (seed, regions, patches) = (argument(1, 1), argument(2, 20_000), argument(3, 20_000));
    let bench = rows::checks().into_iter().map(bench_check);
    let bench = bench.chain(rows::patches().into_iter().map(bench_patch));
    let random = random_checks(seed, regions).chain(random_patches(seed, patches));

    let out = &mut BufWriter::new(io::stdout().lock());
    let (mut calls, mut numbers, mut whys) = (0u64, BTreeSet::new(), BTreeSet::new());
    for vector in bench.chain(wide()).chain(random) {
        vector.write(out)?;
        calls += 1;
        numbers.insert(vector.outcome.number());
        whys.extend(vector.outcome.why().map(|why| (vector.kind, why)));
    }
    assert!(
        numbers.into_iter().eq(0..=14),
        "acceptance and every refusal must be among the answers"
    );
    let every_why = [CHECK, PATCH].into_iter().flat_map(|kind| Why::ALL.map(|why| (kind, why)));
    assert!(whys.into_iter().eq(every_why), "checks and patches must give every why");
    out.write_all(&END.to_le_bytes())?;
    out.write_all(&calls.to_le_bytes())?;
    out.flush()
}

/// A call, and what it must leave.
#[derive(Clone)]
struct Vector {
    kind: u32,
    layout: Layout,
    offset: u64,
    /// The lengths of ledger, bytes and new bytes, as they are handed over.
    lengths: [u64; 3],
    before: Lent,
    new: Vec<u8>,
    outcome: Outcome,
    after: Lent,
}

/// What a call may change.
#[derive(Clone)]
struct Lent {
    ledger: Vec<u32>,
    bytes: Vec<u8>,
}

impl Vector {
    fn check(case: Case, stale: Vec<u32>, outcome: Outcome, ledger: Vec<u32>) -> Vector {
        Vector {
            kind: CHECK,
            layout: case.layout,
            offset: 0,
            lengths: [stale.len(), case.code.len(), 0].map(|len| len as u64),
            before: Lent { ledger: stale, bytes: case.code.clone() },
            new: Vec::new(),
            outcome,
            after: Lent { ledger, bytes: case.code },
        }
    }

    fn patch(call: Call, outcome: Outcome, ledger: Vec<u32>, bytes: Vec<u8>) -> Vector {
        Vector {
            kind: PATCH,
            layout: call.layout,
            offset: call.offset as u64,
            lengths: [call.ledger.len(), call.old.len(), call.new.len()].map(|len| len as u64),
            before: Lent { ledger: call.ledger, bytes: call.old },
            new: call.new,
            outcome,
            after: Lent { ledger, bytes },
        }
    }

    fn write(&self, out: &mut impl Write) -> io::Result<()> {
        let Layout { code_start, trampoline_first, trampoline_end, test_pairs } = self.layout;
        for number in [self.kind, code_start, trampoline_first, trampoline_end, test_pairs.into()] {
            out.write_all(&number.to_le_bytes())?;
        }
        let [ledger, bytes, new] = self.lengths;
        for number in [self.offset, ledger, bytes, new] {
            out.write_all(&number.to_le_bytes())?;
        }
        self.before.write(out)?;
        out.write_all(&self.new)?;
        out.write_all(&self.outcome.answer().to_le_bytes())?;
        self.after.write(out)
    }
}

impl Lent {
    fn write(&self, out: &mut impl Write) -> io::Result<()> {
        self.ledger.iter().try_for_each(|entry| out.write_all(&entry.to_le_bytes()))?;
        out.write_all(&self.bytes)
    }
}

fn bench_check(row: Row<Case>) -> Vector {
    let stale = vec![STALE; row.call.entries];
    let (outcome, ledger) = match row.says {
        Ok(ledger) => (Outcome::Accepted, ledger),
        Err(refusal) => (refusal, stale.clone()),
    };
    Vector::check(row.call, stale, outcome, ledger)
}

fn bench_patch(Row { call, says }: Row<Call>) -> Vector {
    let (outcome, ledger, bytes) = match says {
        Ok(ledger) => (Outcome::Accepted, ledger, call.new.clone()),
        Err(refusal) => (refusal, call.ledger.clone(), call.old.clone()),
    };
    Vector::patch(call, outcome, ledger, bytes)
}

fn answered_check(case: Case, stale: Vec<u32>) -> Vector {
    let mut ledger = stale.clone();
    let outcome = check(&case.layout, &case.code, &mut ledger);
    Vector::check(case, stale, outcome, ledger)
}

fn answered_patch(call: Call) -> Vector {
    let (outcome, after) = call.answer();
    Vector::patch(call, outcome, after.ledger, after.old)
}

/// Calls that are accepted, and then with a number past 32 bits: a boundary that
/// cut it off would accept them again. No memory is as long as these lengths
/// say; the answers are the paper's, and no call may touch what it is lent.
fn wide() -> Vec<Vector> {
    const WIDE: u64 = 1 << 32;
    let check = answered_check(Case::new(BENCH_LAYOUT, &[NOP; 4]), vec![STALE; 4]);
    let call = Call::new(BENCH_LAYOUT, &[0; 8], 4, &[NOP; 4], &[NOP; 4]);
    let patch = answered_patch(call.clone());
    let long = |vector: &Vector, more: [u64; 3], number| Vector {
        lengths: std::array::from_fn(|part| vector.lengths[part] + more[part]),
        outcome: Outcome::refused(number),
        after: vector.before.clone(),
        ..vector.clone()
    };
    let mut vectors = vec![
        long(&check, [0, WIDE, 0], 1),
        long(&check, [WIDE, 0, 0], 3),
        long(&patch, [WIDE, 0, 0], 1),
        long(&patch, [0, WIDE, 0], 12),
        long(&patch, [0, 0, WIDE], 12),
        long(&patch, [0, WIDE, WIDE], 12),
    ];
    for offset in [WIDE, WIDE + 16, 1 << 63, (1 << 63) + 16, u64::MAX - 15] {
        let mut call = call.clone();
        call.offset = offset as usize;
        vectors.push(answered_patch(call));
    }
    vectors.extend([check, patch]);
    vectors
}

fn random_checks(seed: u64, count: u64) -> impl Iterator<Item = Vector> {
    families::of_regions(seed, count).flat_map(|(family, mut rng, share)| {
        (0..share).map(move |_| {
            let case = (family.make)(&mut rng);
            let stale = case.stale(&mut rng);
            answered_check(case, stale)
        })
    })
}

fn random_patches(seed: u64, count: u64) -> impl Iterator<Item = Vector> {
    families::of_patches(seed, count).flat_map(|(family, mut rng, share)| {
        let calls = iter::repeat_with(move || (family.make)(&mut rng)).flatten();
        calls.take(share as usize).map(answered_patch)
    })
}
