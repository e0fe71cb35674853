//! Answers, and the numbers of "When the gate stays shut".

use crate::word::Why;

pub const LAYOUT: u32 = 1;
pub const LENGTH: u32 = 2;
pub const LEDGER_LENGTH: u32 = 3;
pub const CLASS: u32 = 4;
pub const REGISTER: u32 = 5;
pub const STACK: u32 = 6;
pub const ACCESS_GUARD: u32 = 7;
pub const BRANCH_GUARD: u32 = 8;
pub const CALL_SLOT: u32 = 9;
pub const LITERAL: u32 = 10;
pub const TARGET: u32 = 11;
pub const PATCH_PLACE: u32 = 12;
pub const DISAGREEMENT: u32 = 13;
pub const STRANDED: u32 = 14;

/// A refusal says why beside the number 4, and there alone.
#[derive(Clone, Copy, Debug, PartialEq, Eq)]
pub enum Outcome {
    Accepted,
    Refused { number: u32, why: Option<Why>, address: Option<u32> },
}

impl Outcome {
    /// A refusal that carries no address.
    pub fn refused(number: u32) -> Outcome {
        Outcome::Refused { number, why: None, address: None }
    }

    /// 0 for acceptance, else the refusal's number.
    pub fn number(self) -> u32 {
        match self {
            Outcome::Accepted => 0,
            Outcome::Refused { number, .. } => number,
        }
    }

    /// Why the word refused is in no class, if that is the refusal.
    pub fn why(self) -> Option<Why> {
        match self {
            Outcome::Accepted => None,
            Outcome::Refused { why, .. } => why,
        }
    }

    /// As the C interface gives it: the number, the why in bits 15..8 and the
    /// address in the high 32, 0 for none.
    pub fn answer(self) -> u64 {
        let Outcome::Refused { number, why, address } = self else { return 0 };
        let why = why.map_or(0, |why| why as u32);
        u64::from(address.unwrap_or(0)) << 32 | u64::from(why << 8 | number)
    }

    /// What such an answer says; no word stands at address 0. An ill-made one keeps
    /// every bit, in a number too large or a why out of place, and so is no outcome
    /// of this program.
    pub fn of(answer: u64) -> Outcome {
        if answer == 0 {
            return Outcome::Accepted;
        }
        let (low, address) = (answer as u32, (answer >> 32) as u32);
        let why = Why::ALL.into_iter().find(|&why| why as u32 == low >> 8);
        let number = if why.is_some() { low & 0xFF } else { low };
        Outcome::Refused { number, why, address: (address != 0).then_some(address) }
    }
}

/// A word that breaks a rule. Faults are ordered as the paper orders them:
/// rising address, then lowest number.
#[derive(Clone, Copy, PartialEq, Eq, PartialOrd, Ord)]
pub struct Fault {
    pub address: u32,
    pub number: u32,
    pub why: Option<Why>,
}

impl Fault {
    /// A fault of a word in a class.
    pub fn classed(address: u32, number: u32) -> Fault {
        Fault { address, number, why: None }
    }
}

impl From<Fault> for Outcome {
    fn from(fault: Fault) -> Outcome {
        let Fault { address, number, why } = fault;
        Outcome::Refused { number, why, address: Some(address) }
    }
}
