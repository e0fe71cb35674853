//! One call, put to both programs: compares answers, all that the call is lent,
//! and that nothing changed that may not.

use crate::report::{hex, Tally};
#[cfg(feature = "patch")]
use second::families::patches::Call;
use second::families::Case;
use second::regions;
use second::rng::Rng;
use second::{awl, check, Outcome, SANDBOX_END};

pub fn check_both(case: &Case, rng: &mut Rng, tally: &mut Tally) {
    let stale = case.stale(rng);
    let (mut own_ledger, mut ledger) = (stale.clone(), stale.clone());
    let mut code = case.code.clone();
    let own = check(&case.layout, &case.code, &mut own_ledger);
    let theirs = awl::check(&case.layout, &mut code, &mut ledger);
    let kept = own == Outcome::Accepted || own_ledger == stale;
    let same = own == theirs && own_ledger == ledger && kept && code == case.code;
    tally.count(own, same, || {
        format!(
            "{:?}\ncode {}\ncode after the library {}\nbefore {stale:?}\n\
             own     {own:?} {own_ledger:?}\nlibrary {theirs:?} {ledger:?}",
            case.layout,
            hex(&case.code),
            hex(&code),
        )
    });
}

/// Lengths up to past the whole sandbox, which nobody need touch.
pub fn check_huge(rng: &mut Rng, tally: &mut Tally) {
    let end = SANDBOX_END as usize;
    let mut code = vec![0; end + 32];
    for _ in 0..1_000 {
        let len = match rng.below(3) {
            0 => end - 131_072 + rng.below(64) - 32,
            1 => end + rng.below(33),
            _ => rng.below(code.len()),
        };
        let mut layout = regions::layout(rng, 16);
        if rng.once_in(2) {
            layout.code_start = ((end - len.min(end)) as u32 & !15).max(131_072);
        }
        let stale = [rng.word(); 4];
        let (mut own_ledger, mut ledger) = (stale, stale);
        let own = check(&layout, &code[..len], &mut own_ledger);
        let theirs = awl::check(&layout, &mut code[..len], &mut ledger);
        let same = own == theirs && own_ledger == stale && ledger == stale;
        tally.count(own, same, || {
            format!("{layout:?}\nlength {len}\nown {own:?}\nlibrary {theirs:?} {ledger:?}")
        });
    }
}

#[cfg(feature = "patch")]
pub fn patch_both(call: &Call, tally: &mut Tally) {
    let (own, after) = call.answer();
    let mut library = call.clone();
    let Call { layout, ledger, offset, old, new, .. } = &mut library;
    let theirs = awl::patch(layout, ledger, *offset, old, new);
    let kept = own == Outcome::Accepted || after == *call;
    let same = own == theirs && after == library && kept && call.is_fresh(own, &after);
    tally.count(own, same, || {
        format!(
            "before  {}\nown     {own:?} {}\nlibrary {theirs:?} {}",
            show(call),
            show(&after),
            show(&library)
        )
    });
}

#[cfg(feature = "patch")]
fn show(call: &Call) -> String {
    let (old, new) = (hex(&call.old), hex(&call.new));
    format!("{:?} offset {} old {old} new {new} ledger {:?}", call.layout, call.offset, call.ledger)
}
