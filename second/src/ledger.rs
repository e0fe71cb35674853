//! Ledger entries: four times the landings, plus the role.

use crate::bundle::Role;

pub fn entry(role: Role, landings: u32) -> u32 {
    4 * landings + role as u32
}

pub fn landings(entry: u32) -> u32 {
    entry / 4
}

pub fn role(entry: u32) -> Role {
    match entry % 4 {
        0 => Role::Plain,
        1 => Role::Inner,
        2 => Role::Data,
        _ => Role::Head,
    }
}
