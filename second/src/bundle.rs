//! A bundle: its readings, pairs and roles, from its bytes alone.

use crate::layout::{BUNDLE, WORD};
use crate::pair::{pair, Pair};
use crate::word::{read, Reading};

pub const HEAD: u32 = 0xE125_BE70;
pub const SLOTS: usize = BUNDLE / WORD;

#[derive(Clone, Copy, Debug, PartialEq, Eq)]
pub enum Role {
    Plain = 0,
    Inner = 1,
    Data = 2,
    Head = 3,
}

impl Role {
    /// Whether a direct branch may land on a word of this role.
    pub fn is_target(self) -> bool {
        matches!(self, Role::Plain | Role::Head)
    }
}

pub enum Bundle {
    /// A literal head and three words of data.
    Literals,
    Code([Word; SLOTS]),
}

/// A word of code: its reading, and the pair it closes with the word before.
#[derive(Clone, Copy)]
pub struct Word {
    pub reading: Reading,
    pub pair: Option<Pair>,
}

impl Bundle {
    pub fn of(bytes: &[u8; BUNDLE]) -> Bundle {
        let words = bytes.as_chunks::<WORD>().0;
        if u32::from_le_bytes(words[0]) == HEAD {
            return Bundle::Literals;
        }
        // Before slot 0 stands nothing: a word in no class makes no pair.
        let mut before = read(!0);
        let mut code = [Word { reading: before, pair: None }; SLOTS];
        for (word, bytes) in code.iter_mut().zip(words) {
            word.reading = read(u32::from_le_bytes(*bytes));
            word.pair = pair(&before, &word.reading);
            before = word.reading;
        }
        Bundle::Code(code)
    }

    pub fn roles(&self) -> [Role; SLOTS] {
        match self {
            Bundle::Literals => [Role::Head, Role::Data, Role::Data, Role::Data],
            Bundle::Code(words) => words.map(|word| match word.pair {
                Some(_) => Role::Inner,
                None => Role::Plain,
            }),
        }
    }
}
