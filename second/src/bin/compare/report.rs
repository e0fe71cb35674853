//! Counts of answers by family, and the first differences in full.

use second::{Outcome, Why};

const NUMBERS: usize = 15;
const WHYS: usize = Why::ALL.len();
const SHOWN: u64 = 5;

pub struct Report {
    what: &'static str,
    tallies: Vec<Tally>,
}

/// One family's answers, by this program's refusal number, 0 for acceptance, and
/// those of number 4 by the why.
pub struct Tally {
    name: &'static str,
    answers: [u64; NUMBERS],
    whys: [u64; WHYS],
    differences: u64,
}

impl Report {
    pub fn new(what: &'static str) -> Report {
        Report { what, tallies: Vec::new() }
    }

    pub fn family(&mut self, name: &'static str) -> &mut Tally {
        self.tallies.push(Tally::new(name));
        self.tallies.last_mut().expect("just pushed")
    }

    /// Prints the table. True when nothing differed, something was accepted and
    /// each of the refusal numbers and every why was seen.
    pub fn finish(&self, numbers: impl Iterator<Item = usize>) -> bool {
        let mut total = Tally::new("all");
        self.tallies.iter().for_each(|tally| total.add(tally));
        print!("{:<10}{:>9}{:>9}", "family", self.what, "accepted");
        (1..NUMBERS).for_each(|number| print!("{number:>8}"));
        Why::ALL.iter().for_each(|&why| print!("{:>8}", format!("why {}", why as u32)));
        println!("{:>12}", "differences");
        self.tallies.iter().chain([&total]).for_each(Tally::print);
        let unseen: Vec<usize> =
            [0].into_iter().chain(numbers).filter(|&answer| total.answers[answer] == 0).collect();
        if !unseen.is_empty() {
            println!("never seen (0 is acceptance): {unseen:?}");
        }
        let whys: Vec<Why> = Why::ALL.into_iter().filter(|&why| total.of(why) == 0).collect();
        if !whys.is_empty() {
            println!("never seen beside a 4: {whys:?}");
        }
        println!("{} {}, {} differences", total.cases(), self.what, total.differences);
        unseen.is_empty() && whys.is_empty() && total.differences == 0
    }
}

impl Tally {
    fn new(name: &'static str) -> Tally {
        Tally { name, answers: [0; NUMBERS], whys: [0; WHYS], differences: 0 }
    }

    fn of(&self, why: Why) -> u64 {
        self.whys[why as usize - 1]
    }

    pub fn cases(&self) -> u64 {
        self.answers.iter().sum()
    }

    /// Counts one comparison, and shows it if it is among the first to differ.
    pub fn count(&mut self, outcome: Outcome, same: bool, show: impl FnOnce() -> String) {
        self.answers[outcome.number() as usize] += 1;
        outcome.why().iter().for_each(|&why| self.whys[why as usize - 1] += 1);
        if !same {
            self.differences += 1;
            if self.differences <= SHOWN {
                println!("difference in {}, case {}:\n{}", self.name, self.cases(), show());
            }
        }
    }

    fn add(&mut self, other: &Tally) {
        self.differences += other.differences;
        self.answers.iter_mut().zip(other.answers).for_each(|(sum, count)| *sum += count);
        self.whys.iter_mut().zip(other.whys).for_each(|(sum, count)| *sum += count);
    }

    fn print(&self) {
        print!("{:<10}{:>9}", self.name, self.cases());
        print!("{:>9}", self.answers[0]);
        self.answers[1..].iter().chain(&self.whys).for_each(|count| print!("{count:>8}"));
        println!("{:>12}", self.differences);
    }
}

pub fn hex(bytes: &[u8]) -> String {
    bytes.iter().map(|byte| format!("{byte:02x}")).collect()
}
