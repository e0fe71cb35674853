//! The patch of whole bundles, seen through the ledger.

use crate::bundle::Role;
use crate::layout::{Layout, Region, BUNDLE, WORD};
use crate::ledger::{entry, landings, role};
use crate::outcome::{Fault, Outcome, DISAGREEMENT, PATCH_PLACE, STRANDED};
use crate::survey::Survey;

/// Replaces bundles of a region known by its ledger. On acceptance the old
/// bytes become the new and the ledger moves; a refusal changes nothing.
pub fn patch(
    layout: &Layout,
    ledger: &mut [u32],
    offset: usize,
    old: &mut [u8],
    new: &[u8],
) -> Outcome {
    match judge(layout, ledger, offset, old, new) {
        Ok(edited) => {
            old.copy_from_slice(new);
            ledger.copy_from_slice(&edited);
            Outcome::Accepted
        }
        Err(refusal) => refusal,
    }
}

/// The ledger of the edited region, or the refusal.
fn judge(
    layout: &Layout,
    ledger: &[u32],
    offset: usize,
    old: &[u8],
    new: &[u8],
) -> Result<Vec<u32>, Outcome> {
    let code_len = WORD * ledger.len();
    let region = Region::new(layout, code_len)?;
    if !fits(code_len, offset, old.len(), new.len()) {
        return Err(Outcome::refused(PATCH_PLACE));
    }
    let first = offset / WORD;
    let before = Survey::of(&region, first, old);
    let after = Survey::of(&region, first, new);
    let counts =
        Counts::settle(ledger, first, &before, &after).ok_or(Outcome::refused(DISAGREEMENT))?;
    let role = |word| new_role(ledger, first, &after, word);
    if let Some(fault) = after.first_fault(role) {
        return Err(fault.into());
    }
    if let Some(word) = counts.first_stranded(first, &after) {
        return Err(Fault::classed(region.address(word), STRANDED).into());
    }
    Ok((0..).zip(counts.edited).map(|(word, count)| entry(role(word), count)).collect())
}

/// Rule 12's demands, for numbers of any size.
fn fits(code_len: usize, offset: usize, old_len: usize, new_len: usize) -> bool {
    new_len != 0
        && new_len.is_multiple_of(BUNDLE)
        && new_len == old_len
        && offset.is_multiple_of(BUNDLE)
        && offset.checked_add(new_len).is_some_and(|end| end <= code_len)
}

/// A word's role in the edited region: by the new bundles inside the patch, by
/// the ledger outside it.
fn new_role(ledger: &[u32], first: usize, after: &Survey, word: usize) -> Role {
    let patched = word.checked_sub(first).and_then(|place| after.roles.get(place));
    patched.copied().unwrap_or_else(|| role(ledger[word]))
}

/// Landings on each word of the region.
struct Counts {
    /// Less the old bundles' branches.
    left: Vec<u32>,
    /// Less the old bundles' branches and plus the new ones'.
    edited: Vec<u32>,
}

impl Counts {
    /// None is rule 13. The new bundles' branches all count here, whatever
    /// other rule they break: 13 comes before 4 to 11.
    fn settle(ledger: &[u32], first: usize, before: &Survey, after: &Survey) -> Option<Counts> {
        let words = ledger.len();
        let within = |counts: &[u32]| counts.iter().all(|&count| count as usize <= words);
        let mut left: Vec<u32> = ledger.iter().map(|&entry| landings(entry)).collect();
        let agree = before.roles.iter().zip(&ledger[first..]).all(|(&old, &e)| old == role(e));
        if !within(&left) || !agree {
            return None;
        }
        for word in before.landings() {
            left[word] = left[word].checked_sub(1)?;
        }
        let mut edited = left.clone();
        for word in after.landings() {
            edited[word] += 1;
        }
        within(&edited).then_some(Counts { left, edited })
    }

    /// The first word of the patch that is inner or data by the new bundles
    /// while a branch from elsewhere lands on it.
    fn first_stranded(&self, first: usize, after: &Survey) -> Option<usize> {
        let mut patched = (first..).zip(&after.roles);
        let stranded = patched.find(|&(word, role)| !role.is_target() && self.left[word] != 0);
        stranded.map(|(word, _)| word)
    }
}
