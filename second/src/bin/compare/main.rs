//! Compares this program with the library over reproducible random cases.
//!
//! `compare [seed] [regions] [patches]`

mod calls;
mod report;

use report::Report;
use second::families::{self, argument};
use second::rng::Rng;
use std::process::ExitCode;

fn main() -> ExitCode {
    let seed = argument(1, 1);
    println!("seed {seed}");
    let checks = check_families(seed, argument(2, 1_000_000)).finish(1..=11);
    #[cfg(feature = "patch")]
    let patches = patch_families(seed, argument(3, 100_000)).finish((1..=2).chain(4..=14));
    #[cfg(not(feature = "patch"))]
    let patches = true;
    ExitCode::from(u8::from(!(checks && patches)))
}

fn check_families(seed: u64, regions: u64) -> Report {
    let mut report = Report::new("regions");
    for (family, mut rng, share) in families::of_regions(seed, regions) {
        let tally = report.family(family.name);
        for _ in 0..share {
            let case = (family.make)(&mut rng);
            calls::check_both(&case, &mut rng, tally);
        }
    }
    calls::check_huge(&mut Rng::new(seed << 8 | 0xFF), report.family("huge"));
    report
}

#[cfg(feature = "patch")]
fn patch_families(seed: u64, patches: u64) -> Report {
    let mut report = Report::new("patches");
    for (family, mut rng, share) in families::of_patches(seed, patches) {
        let tally = report.family(family.name);
        while tally.cases() < share {
            (family.make)(&mut rng).iter().for_each(|call| calls::patch_both(call, tally));
        }
    }
    report
}
