//! One pass over bundles of a region: roles, landings, first fault.

use crate::bundle::{Bundle, Role, Word, SLOTS};
use crate::layout::{Region, BUNDLE, WORD};
use crate::outcome::{Fault, TARGET};
use crate::rules::broken;

pub struct Survey {
    pub roles: Vec<Role>,
    /// The direct branches that land in the code, by rising address.
    landings: Vec<Landing>,
    /// The first fault that no role of a landing makes.
    fault: Option<Fault>,
}

struct Landing {
    /// The branch's address.
    from: u32,
    /// The word it lands on.
    on: u32,
}

impl Survey {
    /// Surveys whole bundles that stand from the region's word `first` on.
    pub fn of(region: &Region, first: usize, bundles: &[u8]) -> Survey {
        let roles = Vec::with_capacity(bundles.len() / WORD);
        let mut survey = Survey { roles, landings: Vec::new(), fault: None };
        let mut address = region.address(first);
        for bytes in bundles.as_chunks::<BUNDLE>().0 {
            let bundle = Bundle::of(bytes);
            survey.roles.extend_from_slice(&bundle.roles());
            if let Bundle::Code(code) = &bundle {
                survey.see(region, code, address);
            }
            address += BUNDLE as u32;
        }
        survey
    }

    fn see(&mut self, region: &Region, code: &[Word; SLOTS], start: u32) {
        for (slot, word) in code.iter().enumerate() {
            let address = start + (WORD * slot) as u32;
            if self.fault.is_none() {
                if let Some(number) = broken(region, code, slot, address) {
                    self.fault = Some(Fault { address, number, why: word.reading.why() });
                }
            }
            let target = word.reading.target(address);
            if let Some(word) = target.and_then(|target| region.word_at(target)) {
                self.landings.push(Landing { from: address, on: word as u32 });
            }
        }
    }

    /// The first fault among rules 4 to 11, given every word's role.
    pub fn first_fault(&self, role: impl Fn(usize) -> Role) -> Option<Fault> {
        let astray = self.landings.iter().find(|landing| !role(landing.on as usize).is_target());
        let astray = astray.map(|landing| Fault::classed(landing.from, TARGET));
        self.fault.into_iter().chain(astray).min()
    }

    /// The words the branches land on, one for each branch.
    pub fn landings(&self) -> impl Iterator<Item = usize> + '_ {
        self.landings.iter().map(|landing| landing.on as usize)
    }
}
