//! The check of a whole region.

use crate::bundle::Role;
use crate::layout::{Layout, Region, WORD};
use crate::ledger::entry;
use crate::outcome::{Outcome, LEDGER_LENGTH};
use crate::survey::Survey;

/// Checks a region. On acceptance the ledger is written; a refusal leaves it.
pub fn check(layout: &Layout, code: &[u8], ledger: &mut [u32]) -> Outcome {
    match judge(layout, code, ledger.len()) {
        Ok(survey) => {
            write(&survey, ledger);
            Outcome::Accepted
        }
        Err(refusal) => refusal,
    }
}

fn judge(layout: &Layout, code: &[u8], entries: usize) -> Result<Survey, Outcome> {
    let region = Region::new(layout, code.len())?;
    if entries != code.len() / WORD {
        return Err(Outcome::refused(LEDGER_LENGTH));
    }
    let survey = Survey::of(&region, 0, code);
    match survey.first_fault(|word| survey.roles[word]) {
        Some(fault) => Err(fault.into()),
        None => Ok(survey),
    }
}

fn write(survey: &Survey, ledger: &mut [u32]) {
    for (slot, &role) in ledger.iter_mut().zip(&survey.roles) {
        *slot = entry(role, 0);
    }
    for word in survey.landings() {
        ledger[word] += entry(Role::Plain, 1);
    }
}
