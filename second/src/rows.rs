//! Every statement of document 01's "Words from the bench", in its order, and the
//! words given for requests 1, 3 and 6 of document 02.

use crate::families::{patches::Call, Case};
use crate::make::{padded, NOP as N};
use crate::outcome::{Fault, Outcome, CLASS, DISAGREEMENT, LENGTH};
use crate::regions::BENCH_LAYOUT;
use crate::word::Why::{self, Condition, RegisterIndexed, SystemCall, Unlisted};

/// A call, and what the papers say of it: the ledger afterwards, or the refusal.
pub struct Row<T> {
    pub call: T,
    pub says: Result<Vec<u32>, Outcome>,
}

const NOPS: [u32; 4] = [N; 4];
/// No mask of r0, and so a plain access.
const FROM_R9: [u32; 4] = [0xE3C9_0103, 0xE580_1000, N, N];
/// Of r13: both stand alone.
const TWO_MASKS: [u32; 4] = [0xE3C0_D103, 0xE3CD_D103, N, N];
/// The closing mask of r13 is a branch mask of it too.
const TWO_PAIRS: [u32; 4] = [0xE1A0_D000, 0xE3CD_D13F, 0xE12F_FF1D, N];

/// Words in no class, and why.
const NO_CLASS: [(Why, &[u32]); 17] = [
    (Condition, &[0xF3C0_0103, 0xF000_0000, 0xF320_F000, 0xFA00_0000, 0xF125_BE70]),
    // Where others hold as well.
    (Condition, &[0xFF00_0000, 0xFF00_0010, 0xF780_1002, 0xF7F0_00F0, !0]),
    (SystemCall, &[0xEF00_0000, 0xEF00_0010, 0x0F00_0000, 0xDF12_3456, 0xEFFF_FFFF]),
    (RegisterIndexed, &[0xE780_1002, 0x0780_1002, 0xE690_1002, 0xE7D0_1F82, 0xE7FF_FFEF]),
    // Bits 27..25 = 011 with bit 4 = 1, then a coprocessor's words.
    (Unlisted, &[0xE7F0_00F0, 0xE780_1012, 0xE6BF_1071, 0x07F0_00F0]),
    (Unlisted, &[0xEE00_0000, 0xEE00_0010, 0xEEFF_FFFF, 0xED80_1002, 0xEC00_0000]),
    // What document 01 and request 1 leave out of a class.
    (Unlisted, &[0xE320_F001, 0x0320_F000]), // no nop
    (Unlisted, &[0xE100_0002, 0xE351_1002]), // tst without S, cmp with Rd
    (Unlisted, &[0xE1A1_2003, 0xE3E1_2000]), // mov and mvn with Rn
    (Unlisted, &[0xE001_1293, 0xE040_0090]), // a multiply with 15..12, or with 27..21 = 2
    (Unlisted, &[0xE4A0_1000, 0xE0F0_10B2]), // P = 0 with W = 1
    (Unlisted, &[0xE5A0_0004, 0xE1F0_00B2]), // write-back into Rt
    (Unlisted, &[0xE190_10B2, 0xE180_10B2]), // a halfword by register
    (Unlisted, &[0xE1C0_10D0, 0xE1C0_10F0]), // signed stores
    (Unlisted, &[0xE890_0000, 0xE8D0_0006]), // an empty list, bit 22
    (Unlisted, &[0xE8A0_0001, 0xE8BD_2001]), // write-back into the list
    (Unlisted, &[0xE12F_FF20, 0x0125_BE70]), // neither bx nor blx, no head
];

pub fn checks() -> Vec<Row<Case>> {
    [bench(), transfers(), masks(), whys()].into_iter().flatten().collect()
}

fn bench() -> Vec<Row<Case>> {
    let longest = [N; 16_384];
    vec![
        accepts(&[N, N, N, N], &[0, 0, 0, 0]),
        accepts(&[0xE3C0_0103, 0xE580_1000], &[0, 1, 0, 0]),
        accepts(&[0xE3C0_020C, 0xE580_1000], &[0, 1, 0, 0]),
        refuses(&[N, N, N, 0xE3C0_0103, 0xE580_1000], 7, 131_088),
        accepts(&[0xE310_0103, 0x0580_1000], &[0, 1, 0, 0]),
        switched_off(refuses(&[0xE310_0103, 0x0580_1000], 7, 131_076)),
        refuses(&[0x0310_0103, 0x0580_1000], 7, 131_076),
        accepts(&[0xE3C0_013F, 0xE12F_FF10], &[0, 1, 0, 0]),
        accepts(&[N, N, N, 0xEBFF_FFFB], &[4, 0, 0, 0]),
        refuses(&[0xEBFF_FFFE], 9, 131_072),
        refuses(&[0xE3C0_0103, 0xE580_1000, 0xEAFF_FFFD], 11, 131_080),
        accepts(&[N, N, N, 0xEAFF_BFFB], &[0, 0, 0, 0]),
        refuses(&[N, N, N, 0xEAFF_BFFC], 11, 131_084),
        accepts(&[0xE125_BE70, !0, !0, !0], &[3, 2, 2, 2]),
        in_no_class(&[N, 0xE125_BE70], Unlisted, 131_076),
        accepts(&[0xE1A0_D000, 0xE3CD_D103], &[0, 1, 0, 0]),
        refuses(&[0xE1B0_D000, 0xE3CD_D103], 6, 131_072),
        refuses(&[0xE00F_0291], 5, 131_072),
        refuses(&[0xE589_1000], 5, 131_072),
        in_no_class(&[0xE780_1002], RegisterIndexed, 131_072),
        in_no_class(&[0xEF00_0000], SystemCall, 131_072),
        accepts(&[0xE59F_0004], &[0, 0, 0, 0]),
        refuses(&[0xE59F_0008], 10, 131_072),
        refuses(&[0xE59F_0006], 10, 131_072),
        accepts(&[N, N, N, 0xEA00_0000, N, N, N, N], &[0, 0, 0, 0, 0, 4, 0, 0]),
        too_short_or_long(0),
        too_short_or_long(15),
        too_short_or_long(65_552),
        accepts(&longest, &[0; 16_384]),
    ]
}

/// Request 1: multiple transfers, then halfwords and signed accesses.
fn transfers() -> Vec<Row<Case>> {
    let mask = 0xE3C0_0103;
    vec![
        accepts(&[0xE92D_4010], &[0, 0, 0, 0]),
        accepts(&[0xE8BD_4010], &[0, 0, 0, 0]),
        refuses(&[0xE8BD_8010], 5, 131_072),
        accepts(&[mask, 0xE890_0006], &[0, 1, 0, 0]),
        refuses(&[0xE890_0006], 7, 131_072),
        in_no_class(&[0xE8A0_0001], Unlisted, 131_072),
        in_no_class(&[0xE890_0000], Unlisted, 131_072),
        in_no_class(&[0xE8D0_0006], Unlisted, 131_072),
        refuses(&[0xE89D_2001], 6, 131_072),
        in_no_class(&[0xE8BD_2001], Unlisted, 131_072),
        refuses(&[0xE880_2000], 6, 131_072),
        accepts(&[mask, 0xE1D0_10B0], &[0, 1, 0, 0]),
        accepts(&[mask, 0xE1D0_10D0], &[0, 1, 0, 0]),
        accepts(&[mask, 0xE1D0_10F0], &[0, 1, 0, 0]),
        in_no_class(&[mask, 0xE1C0_10D0], Unlisted, 131_076),
        in_no_class(&[mask, 0xE1C0_10F0], Unlisted, 131_076),
        in_no_class(&[0xE190_10B2], Unlisted, 131_072),
        refuses(&[0xE1DF_10B4], 5, 131_072),
        refuses(&[mask, 0xE1D0_D0B0], 6, 131_076),
        in_no_class(&[0xE0F0_10B2], Unlisted, 131_072),
        accepts(&[0xE310_0103, 0x01D0_10B0], &[0, 1, 0, 0]),
        switched_off(refuses(&[0xE310_0103, 0x01D0_10B0], 7, 131_076)),
    ]
}

/// Request 3: data masks, tests and branch masks, then masks of r13.
fn masks() -> Vec<Row<Case>> {
    let store = 0xE580_1000;
    vec![
        accepts(&[0xE3C0_013F, store], &[0, 1, 0, 0]),
        accepts(&[0xE3C1_0103, store], &[0, 1, 0, 0]),
        refuses(&[0xE3C0_1103, store], 7, 131_076),
        refuses(&[0xE3C0_0102, store], 7, 131_076),
        refuses(&FROM_R9, 5, 131_072),
        accepts(&[0xE310_01FF, 0x0580_1000], &[0, 1, 0, 0]),
        switched_off(refuses(&[0xE310_01FF, 0x0580_1000], 7, 131_076)),
        accepts(&[0xE3C0_01FF, 0xE12F_FF10], &[0, 1, 0, 0]),
        refuses(&[0xE3C0_010F, 0xE12F_FF10], 8, 131_076),
        accepts(&[0xE3C0_D103], &[0, 0, 0, 0]),
        accepts(&TWO_MASKS, &[0, 0, 0, 0]),
        refuses(&TWO_PAIRS, 6, 131_080),
    ]
}

/// Request 6: every such word alone, the head's word in slots 1 to 3, then among
/// other faults and as data.
fn whys() -> Vec<Row<Case>> {
    let words = NO_CLASS.iter().flat_map(|&(why, words)| words.iter().map(move |&w| (why, w)));
    let alone = words.map(|(why, word)| in_no_class(&[word], why, 131_072));
    let others = [
        in_no_class(&[N, 0xE125_BE70], Unlisted, 131_076),
        in_no_class(&[N, N, 0xE125_BE70], Unlisted, 131_080),
        in_no_class(&[N, N, N, 0xE125_BE70], Unlisted, 131_084),
        in_no_class(&[N, 0xE780_1002, 0xF000_0000], RegisterIndexed, 131_076),
        refuses(&[0xE580_1000, 0xEF00_0000], 7, 131_072),
        accepts(&[0xE125_BE70, 0xF000_0000, 0xEF00_0000, 0xE780_1002], &[3, 2, 2, 2]),
    ];
    alone.chain(others).collect()
}

pub fn patches() -> Vec<Row<Call>> {
    [bench_patches(), mask_patches(), why_patches()].into_iter().flatten().collect()
}

/// Of the region N N N EA000000, N N N N.
fn bench_patches() -> Vec<Row<Call>> {
    let branching = [N, N, N, 0xEA00_0000];
    let pair = [0xE3C0_0103, 0xE580_1000, N, N];
    let [landed, empty, paired] = [4, 0, 1].map(|entry| [0, 0, 0, 0, 0, entry, 0, 0]);
    vec![
        patch(&landed, 4, &NOPS, &pair, refusal(14, 131_092)),
        patch(&landed, 0, &branching, &NOPS, Ok(empty.to_vec())),
        patch(&empty, 4, &NOPS, &pair, Ok(paired.to_vec())),
    ]
}

/// Request 3: the ledger must have the old bundle's roles by the new rule.
fn mask_patches() -> Vec<Row<Call>> {
    let to_nops = |old, ledger, says| patch(ledger, 0, old, &NOPS, says);
    let disagrees = || Err(Outcome::refused(DISAGREEMENT));
    vec![
        to_nops(&TWO_MASKS, &[0, 1, 0, 0], disagrees()),
        to_nops(&TWO_MASKS, &[0; 4], Ok(vec![0; 4])),
        to_nops(&FROM_R9, &[0, 1, 0, 0], disagrees()),
        to_nops(&FROM_R9, &[0; 4], Ok(vec![0; 4])),
        to_nops(&TWO_PAIRS, &[0, 1, 0, 0], disagrees()),
        to_nops(&TWO_PAIRS, &[0, 1, 1, 0], Ok(vec![0; 4])),
    ]
}

/// Request 6: words brought in, an old one replaced, and 13 before 4.
fn why_patches() -> Vec<Row<Call>> {
    let bring = |new, says| patch(&[0; 8], 4, &NOPS, new, says);
    vec![
        bring(&[0xF3C0_0103, N, N, N], no_class(Condition, 131_088)),
        bring(&[N, 0xEF00_0000, N, N], no_class(SystemCall, 131_092)),
        bring(&[N, N, 0xE780_1002, N], no_class(RegisterIndexed, 131_096)),
        bring(&[N, N, N, 0xE125_BE70], no_class(Unlisted, 131_100)),
        patch(&[0; 8], 4, &[0xEF00_0000, N, N, N], &NOPS, Ok(vec![0; 8])),
        patch(&[1; 8], 4, &NOPS, &[!0; 4], Err(Outcome::refused(DISAGREEMENT))),
    ]
}

fn patch(
    ledger: &[u32],
    first: usize,
    old: &[u32],
    new: &[u32],
    says: Result<Vec<u32>, Outcome>,
) -> Row<Call> {
    Row { call: Call::new(BENCH_LAYOUT, ledger, first, old, new), says }
}

fn accepts(words: &[u32], ledger: &[u32]) -> Row<Case> {
    Row { call: Case::new(BENCH_LAYOUT, &padded(words)), says: Ok(ledger.to_vec()) }
}

fn refuses(words: &[u32], number: u32, address: u32) -> Row<Case> {
    Row { call: Case::new(BENCH_LAYOUT, &padded(words)), says: refusal(number, address) }
}

fn in_no_class(words: &[u32], why: Why, address: u32) -> Row<Case> {
    Row { call: Case::new(BENCH_LAYOUT, &padded(words)), says: no_class(why, address) }
}

fn no_class(why: Why, address: u32) -> Result<Vec<u32>, Outcome> {
    Err(Fault { address, number: CLASS, why: Some(why) }.into())
}

fn refusal(number: u32, address: u32) -> Result<Vec<u32>, Outcome> {
    Err(Fault::classed(address, number).into())
}

fn switched_off(mut row: Row<Case>) -> Row<Case> {
    row.call.layout.test_pairs = false;
    row
}

fn too_short_or_long(len: usize) -> Row<Case> {
    let call = Case { layout: BENCH_LAYOUT, code: vec![0; len], entries: len / 4 };
    Row { call, says: Err(Outcome::refused(LENGTH)) }
}
