//! The two that do the jobs, side by side: the proved core through its Rust binding, and the yardstick.

use std::hint::black_box;

use mahrullis::{End, Gate, Refusal};
use yardstick::{Limits, Report, Yardstick};

#[derive(Clone, Copy)]
pub enum Engine {
    Ours,
    Yardstick,
}

#[derive(Clone, Copy)]
pub enum Job {
    Check,
    /// With the greatest limits.
    Run,
}

/// What a job said.
#[derive(Debug, PartialEq, Eq)]
pub struct Said {
    pub report: Report,
    /// After RUN: the numbers put out.
    pub numbers: Vec<i64>,
    /// After CHECK: the tree.
    pub tree: Vec<u64>,
}

#[derive(Default)]
pub struct Engines {
    gate: Gate,
    yardstick: Yardstick,
}

fn limits_of(limits: Limits) -> mahrullis::Limits {
    mahrullis::Limits::new(limits.fuel, limits.depth, limits.bindings, limits.cells, limits.output)
}

fn refused(refusal: Refusal) -> Report {
    Report { code: refusal.code.number() as u8, place: refusal.place as u16, ..Report::default() }
}

impl Engines {
    /// Does a job and leaves what it said.
    pub fn work(&mut self, engine: Engine, job: Job, text: &[u8]) {
        let text = black_box(text);
        match (engine, job) {
            (Engine::Ours, Job::Check) => drop(black_box(self.gate.check(text))),
            (Engine::Ours, Job::Run) => drop(black_box(self.gate.run(text, mahrullis::Limits::GREATEST))),
            (Engine::Yardstick, Job::Check) => drop(black_box(self.yardstick.check(text))),
            (Engine::Yardstick, Job::Run) => drop(black_box(self.yardstick.run(text, Limits::GREATEST))),
        }
    }

    pub fn check(&mut self, engine: Engine, text: &[u8]) -> Said {
        let (report, tree) = match engine {
            Engine::Ours => match self.gate.check(text) {
                Ok(tree) => (Report::default(), tree.words().to_vec()),
                Err(refusal) => (refused(refusal), Vec::new()),
            },
            Engine::Yardstick => {
                let verdict = self.yardstick.check(text);
                (verdict.map_or_else(Report::from, |()| Report::default()), self.yardstick.tree().to_vec())
            }
        };
        Said { report, numbers: Vec::new(), tree }
    }

    pub fn run(&mut self, engine: Engine, text: &[u8], limits: Limits) -> Said {
        let (report, numbers) = match engine {
            Engine::Ours => match self.gate.run(text, limits_of(limits)) {
                Ok(done) => {
                    let (code, place, made) = match done.end {
                        End::Done => (0, 0, 0),
                        End::Stopped { stop, place, made } => (stop.number() as u8, place as u16, made.unwrap_or(0) as u16),
                    };
                    let report = Report { code, place, units: done.units as u32, bindings: done.bindings as u32, cells: done.cells as u32, made };
                    (report, done.numbers.to_vec())
                }
                Err(refusal) => (refused(refusal), Vec::new()),
            },
            Engine::Yardstick => (self.yardstick.run(text, limits), self.yardstick.numbers().to_vec()),
        };
        Said { report, numbers, tree: Vec::new() }
    }

    /// Units that a text's run takes under the greatest limits.
    pub fn units(&mut self, text: &[u8]) -> u32 {
        self.yardstick.run(text, Limits::GREATEST).units
    }
}
