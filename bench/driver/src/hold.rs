//! Both engines say the same, of the repository's vectors as those expect it, and of every text that is timed.

use yardstick::vectors::{check_cases, run_cases, shown};
use yardstick::Limits;

use crate::engines::{Engine, Engines, Said};
use crate::texts;

/// Texts that are dear to run are held as far as this goes.
const FUEL_TO_HOLD: u64 = 20_000;

#[derive(Default)]
struct Tally {
    tried: u32,
    differ: u32,
}

impl Tally {
    fn compare(&mut self, text: &[u8], ours: &Said, other: &Said) {
        const SHOWN: u32 = 5;
        self.tried += 1;
        if ours == other {
            return;
        }
        self.differ += 1;
        if self.differ <= SHOWN {
            println!("ours {:?}, and not {:?}: {}", ours.report, other.report, shown(text));
        }
    }

    fn both_check(&mut self, engines: &mut Engines, text: &[u8]) {
        let ours = engines.check(Engine::Ours, text);
        self.compare(text, &ours, &engines.check(Engine::Yardstick, text));
    }

    fn both_run(&mut self, engines: &mut Engines, text: &[u8], limits: Limits) {
        let ours = engines.run(Engine::Ours, text, limits);
        self.compare(text, &ours, &engines.run(Engine::Yardstick, text, limits));
    }
}

/// Whether all agree.
pub fn all_agree() -> bool {
    let mut engines = Engines::default();
    let mut tally = Tally::default();
    for case in run_cases() {
        let ours = engines.run(Engine::Ours, &case.text, case.limits);
        tally.compare(&case.text, &ours, &Said { report: case.report, numbers: case.numbers, tree: Vec::new() });
        tally.both_run(&mut engines, &case.text, case.limits);
        tally.both_check(&mut engines, &case.text);
    }
    for case in check_cases() {
        tally.both_check(&mut engines, &case.text);
    }
    for text in texts::workloads().into_iter().chain(texts::tariffs()).chain(texts::units_in_force()) {
        tally.both_run(&mut engines, &text.bytes, Limits::GREATEST);
    }
    let grown = texts::growths().into_iter().flat_map(|(_, list)| list);
    for text in texts::usual_checks().into_iter().chain(texts::dear_checks()).chain(grown) {
        tally.both_check(&mut engines, &text.bytes);
    }
    for text in texts::dear_runs() {
        tally.both_run(&mut engines, &text.bytes, Limits { fuel: FUEL_TO_HOLD, ..Limits::GREATEST });
    }
    println!("{} of {} comparisons agree", tally.tried - tally.differ, tally.tried);
    tally.differ == 0
}
