//! Words to order, for the tests and the comparisons.

pub use crate::bundle::HEAD;
pub use crate::word::{NOP, PC, R9, SP};

pub const EQUAL: u32 = 0;
pub const ALWAYS: u32 = 14;

pub const SUB: u32 = 2;
pub const ADD: u32 = 4;
pub const TST: u32 = 8;
pub const MOV: u32 = 13;
pub const BIC: u32 = 14;

/// The low twelve bits that make 0xC0000000; with any more of the lowest eight
/// set, they are all that make its bits and others.
pub const DATA_BITS: [u32; 4] = [0x103, 0x20C, 0x330, 0x4C0];
/// The same for 0xC000000F.
pub const BRANCH_BITS: [u32; 2] = [0x13F, 0x2FC];

/// The bit that makes a data word's low twelve bits an immediate.
pub const IMMEDIATE: u32 = 1 << 25;

/// An access's letters, as bits 24 to 20.
pub const P: u32 = 16;
pub const U: u32 = 8;
pub const B: u32 = 4;
pub const W: u32 = 2;
pub const L: u32 = 1;
/// In B's place for a half access: the distance is immediate.
pub const I: u32 = 4;

/// A data word; `low` is its bits 11 to 0, with `IMMEDIATE` or without.
pub fn data(condition: u32, operation: u32, s: u32, rn: u32, rd: u32, low: u32) -> u32 {
    condition << 28 | operation << 21 | s << 20 | rn << 16 | rd << 12 | low
}

pub fn mask(condition: u32, register: u32, low: u32) -> u32 {
    mask_from(condition, register, register, low)
}

/// A mask of `rd` that reads `rn`.
pub fn mask_from(condition: u32, rn: u32, rd: u32, low: u32) -> u32 {
    data(condition, BIC, 0, rn, rd, IMMEDIATE | low)
}

pub fn test(condition: u32, register: u32, low: u32) -> u32 {
    data(condition, TST, 1, register, 0, IMMEDIATE | low)
}

pub fn half_move(condition: u32, top: bool, rd: u32, number: u32) -> u32 {
    let class = if top { 0x34 } else { 0x30 };
    condition << 28 | class << 20 | (number >> 12 & 15) << 16 | rd << 12 | number & 0xFFF
}

pub fn multiply(condition: u32, s: u32, target: u32, rs: u32, rm: u32) -> u32 {
    condition << 28 | s << 20 | target << 16 | rs << 8 | 9 << 4 | rm
}

/// A multiply that accumulates.
pub fn multiply_add(condition: u32, target: u32, added: u32, rs: u32, rm: u32) -> u32 {
    multiply(condition, 0, target, rs, rm) | 1 << 21 | added << 12
}

pub fn access(condition: u32, letters: u32, rn: u32, rt: u32, distance: u32) -> u32 {
    condition << 28 | 0b010 << 25 | letters << 20 | rn << 16 | rt << 12 | distance & 0xFFF
}

/// An access indexed by a register, if bit 4 of `low` is 0.
pub fn indexed_access(condition: u32, letters: u32, rn: u32, rt: u32, low: u32) -> u32 {
    access(condition, letters, rn, rt, low) | 1 << 25
}

/// A half access; its kind is bits 6 and 5.
pub fn half_access(
    condition: u32,
    letters: u32,
    kind: u32,
    rn: u32,
    rt: u32,
    distance: u32,
) -> u32 {
    let low = (distance & 0xF0) << 4 | 9 << 4 | kind << 5 | distance & 15;
    condition << 28 | letters << 20 | rn << 16 | rt << 12 | low
}

/// A multiple transfer; the list is bits 15 to 0.
pub fn multiple(condition: u32, letters: u32, rn: u32, list: u32) -> u32 {
    condition << 28 | 0b100 << 25 | letters << 20 | rn << 16 | list
}

/// A literal load at one address of the bytes at another, 4,095 away at most.
pub fn literal(condition: u32, rt: u32, own: u32, from: i64) -> u32 {
    let distance = from - (i64::from(own) + 8);
    let up = if distance < 0 { 0 } else { U };
    access(condition, P | L | up, 15, rt, distance.unsigned_abs() as u32)
}

/// A branch or call at one address to another, which may be negative.
pub fn branch(condition: u32, call: bool, own: u32, target: i64) -> u32 {
    let words = (target - (i64::from(own) + 8)) / 4;
    condition << 28 | 0b101 << 25 | u32::from(call) << 24 | words as u32 & 0xFF_FFFF
}

pub fn register_branch(condition: u32, call: bool, rm: u32) -> u32 {
    let class = if call { 0x12_FFF3 } else { 0x12_FFF1 };
    condition << 28 | class << 4 | rm
}

pub fn system_call(condition: u32, number: u32) -> u32 {
    condition << 28 | 15 << 24 | number & 0xFF_FFFF
}

/// A word for the coprocessors, one of three kinds.
pub fn coprocessor(condition: u32, kind: u32, low: u32) -> u32 {
    condition << 28 | (12 + kind) << 24 | low & 0xFF_FFFF
}

/// The mask that would guard this word, were it an access or a register branch;
/// for any other word a mask as good as any. It reads its own register, or r0 for
/// r9 and r15, which no mask reads.
pub fn guard(word: u32) -> u32 {
    let of = |register, low| match register {
        R9 | PC => mask_from(word >> 28, 0, register, low),
        _ => mask(word >> 28, register, low),
    };
    let base = word >> 16 & 15;
    match word >> 20 & 0xFF {
        0x40..=0x5F | 0x80..=0x9F => of(base, DATA_BITS[0]),
        0x04..=0x1F if word & 0x90 == 0x90 => of(base, DATA_BITS[0]),
        0x12 => of(word & 15, BRANCH_BITS[0]),
        _ => mask(ALWAYS, 0, DATA_BITS[0]),
    }
}

/// The words, and nops in the missing slots of the last bundle.
pub fn padded(words: &[u32]) -> Vec<u32> {
    let mut words = words.to_vec();
    words.resize(words.len().next_multiple_of(4), NOP);
    words
}

pub fn bytes(words: &[u32]) -> Vec<u8> {
    words.iter().flat_map(|word| word.to_le_bytes()).collect()
}

pub fn words(bytes: &[u8]) -> Vec<u32> {
    bytes.as_chunks::<4>().0.iter().map(|&word| u32::from_le_bytes(word)).collect()
}
