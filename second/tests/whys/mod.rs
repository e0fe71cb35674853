//! What the families make of request 6: words in no class by every why, in every
//! slot, before one another and behind other faults.

use second::make::HEAD;
use second::Why::{self, *};

/// A kind of word in no class: why it is in none, and who is meant.
type Kind = (&'static str, Why, fn(u32) -> bool);

const KINDS: [Kind; 10] = [
    ("condition 15 alone", Condition, |w| !is_system_call(w) && !is_indexed(w)),
    ("condition 15 and a system call", Condition, is_system_call),
    ("condition 15 and an indexed access", Condition, is_indexed),
    ("system call with bit 4 = 0", SystemCall, |w| !has_bit_4(w)),
    ("system call with bit 4 = 1", SystemCall, has_bit_4),
    ("indexed access", RegisterIndexed, |_| true),
    ("indexed access but for bit 4", Unlisted, |w| w >> 25 & 7 == 0b011),
    ("coprocessor", Unlisted, |w| w >> 26 & 3 == 0b11),
    ("near a class", Unlisted, |w| w != HEAD && matches!(w >> 25 & 7, 0 | 1 | 2 | 4)),
    (HEADS, Unlisted, |w| w == HEAD),
];

const HEADS: &str = "head's word";
const TWO: &str = "4 before another why";
const BEHIND: &str = "another number before a 4";

pub fn names() -> impl Iterator<Item = String> {
    let slots = KINDS.iter().flat_map(|kind| (0..4).map(|slot| in_slot(kind.0, slot)));
    // In slot 0 the head's word is a head.
    let slots = slots.filter(|name| *name != in_slot(HEADS, 0));
    slots.chain([TWO, BEHIND].map(str::to_string))
}

fn in_slot(name: &str, slot: usize) -> String {
    format!("{name} in slot {slot}")
}

/// Names the word refused, if that is in no class, and what stands behind it.
pub fn met(code: &[u32], place: usize, why: Option<Why>) -> Vec<String> {
    let is_met = |kind: &&Kind| Some(kind.1) == why && (kind.2)(code[place]);
    let kinds = KINDS.iter().filter(is_met).map(|kind| in_slot(kind.0, place % 4));
    let later = (place + 1..code.len()).filter(|&word| code[word - word % 4] != HEAD);
    let mut whys = later.filter_map(|word| told(code[word]));
    let behind = match why {
        None => whys.next().map(|_| BEHIND),
        Some(first) => whys.find(|&other| other != first).map(|_| TWO),
    };
    kinds.chain(behind.map(str::to_string)).collect()
}

/// A why that no class speaks against.
fn told(word: u32) -> Option<Why> {
    match word {
        _ if word >> 28 == 15 => Some(Condition),
        _ if is_system_call(word) => Some(SystemCall),
        _ if is_indexed(word) => Some(RegisterIndexed),
        _ => None,
    }
}

fn is_system_call(word: u32) -> bool {
    word >> 24 & 15 == 15
}

fn is_indexed(word: u32) -> bool {
    word >> 25 & 7 == 0b011 && !has_bit_4(word)
}

fn has_bit_4(word: u32) -> bool {
    word >> 4 & 1 == 1
}
