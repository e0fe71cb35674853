//! Reading one word: the papers' classes, and nothing of slots or pairs.

pub const NOP: u32 = 0xE320_F000;
pub const R9: u32 = 9;
pub const SP: u32 = 13;
pub const PC: u32 = 15;

const TST: u32 = 8;
const BIC: u32 = 14;

/// A word in its class, or in none. A literal load is an access; the literal
/// head is a matter of slots and so belongs to the bundle.
#[derive(Clone, Copy, Debug, PartialEq, Eq)]
pub struct Reading {
    pub class: Class,
    word: u32,
}

#[derive(Clone, Copy, Debug, PartialEq, Eq)]
pub enum Class {
    Data,
    HalfMove,
    Nop,
    Multiply,
    Access(Access),
    Branch,
    RegisterBranch,
    None,
}

/// What an access moves.
#[derive(Clone, Copy, Debug, PartialEq, Eq)]
pub enum Access {
    /// A word or a byte.
    Word,
    /// A halfword, or a signed byte or halfword.
    Half,
    /// A list of registers.
    Multiple,
}

/// Why a word is in no class, numbered in request 6's order.
#[derive(Clone, Copy, Debug, PartialEq, Eq, PartialOrd, Ord)]
pub enum Why {
    /// Condition 15.
    Condition = 1,
    SystemCall = 2,
    /// An access that is indexed by a register.
    RegisterIndexed = 3,
    Unlisted = 4,
}

impl Why {
    pub const ALL: [Why; 4] =
        [Why::Condition, Why::SystemCall, Why::RegisterIndexed, Why::Unlisted];
}

pub fn read(word: u32) -> Reading {
    Reading { class: class(word).unwrap_or(Class::None), word }
}

fn class(word: u32) -> Option<Class> {
    if field(word, 28) == 15 {
        return None;
    }
    match word >> 25 & 7 {
        0b000 if bit(word, 7) && bit(word, 4) => match half_kind(word) {
            0 => is_multiply(word).then_some(Class::Multiply),
            _ => is_half_access(word).then_some(Class::Access(Access::Half)),
        },
        0b000 if is_data(word) => Some(Class::Data),
        0b000 => is_register_branch(word).then_some(Class::RegisterBranch),
        0b001 if is_data(word) => Some(Class::Data),
        0b001 if word == NOP => Some(Class::Nop),
        0b001 => is_half_move(word).then_some(Class::HalfMove),
        0b010 => is_single_access(word).then_some(Class::Access(Access::Word)),
        0b100 => is_multiple(word).then_some(Class::Access(Access::Multiple)),
        0b101 => Some(Class::Branch),
        _ => None,
    }
}

/// What holds first of a word in no class.
fn why(word: u32) -> Why {
    if field(word, 28) == 15 {
        Why::Condition
    } else if field(word, 24) == 15 {
        Why::SystemCall
    } else if word >> 25 & 7 == 0b011 && !bit(word, 4) {
        Why::RegisterIndexed
    } else {
        Why::Unlisted
    }
}

/// Tells data words from the others with bits 27..25 of 001, or 000 without
/// bits 7 and 4 both set.
fn is_data(word: u32) -> bool {
    match field(word, 21) {
        8..=11 => bit(word, 20) && field(word, 12) == 0,
        13 | 15 => field(word, 16) == 0,
        _ => true,
    }
}

fn is_half_move(word: u32) -> bool {
    matches!(word >> 20 & 0xFF, 0x30 | 0x34)
}

fn is_multiply(word: u32) -> bool {
    match word >> 21 & 0x7F {
        0 => field(word, 12) == 0,
        operation => operation == 1,
    }
}

/// Bits 6..5: 0 among the multiplies, 1 a halfword, 2 a signed byte, 3 a signed
/// halfword.
fn half_kind(word: u32) -> u32 {
    word >> 5 & 3
}

/// The distance must be immediate, and a store that of a halfword.
fn is_half_access(word: u32) -> bool {
    bit(word, 22) && (bit(word, 20) || half_kind(word) == 1) && is_single_access(word)
}

/// What P, W, Rn and Rt must keep to where one register moves.
fn is_single_access(word: u32) -> bool {
    let (p, w) = (bit(word, 24), bit(word, 21));
    match (p, w) {
        (false, true) => false,
        (true, false) => true,
        _ => field(word, 16) != field(word, 12),
    }
}

fn is_multiple(word: u32) -> bool {
    let list = word & 0xFFFF;
    let into_base = bit(word, 21) && bit(list, field(word, 16));
    !bit(word, 22) && list != 0 && !into_base
}

fn is_register_branch(word: u32) -> bool {
    matches!(word >> 4 & 0xFF_FFFF, 0x12_FFF1 | 0x12_FFF3)
}

fn bit(word: u32, place: u32) -> bool {
    word >> place & 1 == 1
}

/// Four bits from a place up.
fn field(word: u32, place: u32) -> u32 {
    word >> place & 15
}

impl Reading {
    /// Why the word is in no class, where it is in none.
    pub fn why(&self) -> Option<Why> {
        (self.class == Class::None).then(|| why(self.word))
    }

    pub fn condition(&self) -> u32 {
        field(self.word, 28)
    }

    /// Bits 19..16: an access's base, a multiply's target.
    pub fn rn(&self) -> u32 {
        field(self.word, 16)
    }

    /// Bits 15..12, for an access of one register Rt.
    pub fn rd(&self) -> u32 {
        field(self.word, 12)
    }

    fn rs(&self) -> u32 {
        field(self.word, 8)
    }

    pub fn rm(&self) -> u32 {
        field(self.word, 0)
    }

    /// Whether a register field, a literal load's base apart, holds one of a set
    /// of registers, given as bits. A field that must be 0 may count as r0: no
    /// rule minds.
    pub fn names(&self, set: u32) -> bool {
        let has = |register: u32| bit(set, register);
        match self.class {
            Class::Data if bit(self.word, 25) => has(self.rn()) || has(self.rd()),
            Class::Data => {
                let shifts = bit(self.word, 4) && has(self.rs());
                has(self.rn()) || has(self.rd()) || has(self.rm()) || shifts
            }
            Class::HalfMove => has(self.rd()),
            Class::Multiply => has(self.rn()) || has(self.rd()) || has(self.rs()) || has(self.rm()),
            Class::Access(_) => {
                self.moved() & set != 0 || has(self.rn()) && !self.is_literal_load()
            }
            Class::RegisterBranch => has(self.rm()),
            Class::Nop | Class::Branch | Class::None => false,
        }
    }

    /// Whether this is a data word that writes r13.
    pub fn writes_stack(&self) -> bool {
        let writes = !matches!(field(self.word, 21), 8..=11);
        self.class == Class::Data && writes && self.rd() == SP
    }

    /// Whether this data word sets the flags.
    pub fn sets_flags(&self) -> bool {
        bit(self.word, 20)
    }

    /// The bits that an immediate bic without S clears.
    pub fn cleared(&self) -> Option<u32> {
        (self.is_immediate(BIC) && !self.sets_flags()).then(|| self.immediate())
    }

    /// The bits that an immediate tst tests.
    pub fn tested(&self) -> Option<u32> {
        self.is_immediate(TST).then(|| self.immediate())
    }

    fn is_immediate(&self, operation: u32) -> bool {
        self.class == Class::Data && bit(self.word, 25) && field(self.word, 21) == operation
    }

    fn immediate(&self) -> u32 {
        (self.word & 0xFF).rotate_right(2 * field(self.word, 8))
    }

    /// The registers an access loads or stores, as bits.
    fn moved(&self) -> u32 {
        match self.class {
            Class::Access(Access::Multiple) => self.word & 0xFFFF,
            _ => 1 << self.rd(),
        }
    }

    /// Whether an access loads r13, or has it in a list.
    pub fn moves_stack(&self) -> bool {
        let minds = bit(self.word, 20) || self.class == Class::Access(Access::Multiple);
        minds && bit(self.moved(), SP)
    }

    /// Whether this is a literal load: a word's access with Rn = 15, P = 1,
    /// B = W = 0, L = 1.
    pub fn is_literal_load(&self) -> bool {
        let is_word = self.class == Class::Access(Access::Word);
        is_word && self.rn() == PC && self.word >> 20 & 0b10111 == 0b10001
    }

    /// Where a literal load at this address reads.
    pub fn literal(&self, address: u32) -> i64 {
        let distance = i64::from(self.word & 0xFFF);
        i64::from(address) + 8 + if bit(self.word, 23) { distance } else { -distance }
    }

    /// Whether a branch of either kind is a call.
    pub fn is_call(&self) -> bool {
        match self.class {
            Class::Branch => bit(self.word, 24),
            Class::RegisterBranch => bit(self.word, 5),
            _ => false,
        }
    }

    /// Where a direct branch at this address goes.
    pub fn target(&self, address: u32) -> Option<i64> {
        let words = (self.word << 8) as i32 >> 8;
        (self.class == Class::Branch).then_some(i64::from(address) + 8 + 4 * i64::from(words))
    }
}
