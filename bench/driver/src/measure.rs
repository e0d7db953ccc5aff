//! Times taken in turns.

use crate::clock;
use crate::engines::{Engine, Engines, Job};
use crate::texts::Text;

/// A number for each round.
pub struct Series(Vec<f64>);

impl Series {
    /// What so many quarters of the rounds do not exceed.
    pub fn quartile(&self, quarters: usize) -> f64 {
        let mut sorted = self.0.clone();
        sorted.sort_by(f64::total_cmp);
        sorted[(sorted.len() - 1) * quarters / 4]
    }

    pub fn median(&self) -> f64 {
        self.quartile(2)
    }

    /// How many times the other's, round by round.
    pub fn to(&self, other: &Series) -> Series {
        Series(self.0.iter().zip(&other.0).map(|(this, other)| this / other).collect())
    }
}

/// Nanoseconds a call.
pub struct Times {
    pub ours: Series,
    pub yardstick: Series,
}

/// A turn of a round repeats a job for about so many nanoseconds.
const TURN: f64 = 4e6;
/// So many calls as take this long tell how many make a turn.
const TRIAL: f64 = TURN / 4.0;
/// All rounds together take about this at most; where one would take longer, the trials are all that is measured.
const MOST: f64 = 5e9;

/// One engine's turn with a text: so many calls, and how long they take.
struct Turn<'a> {
    engine: Engine,
    text: &'a [u8],
    calls: u32,
    took: f64,
}

impl Engines {
    /// Nanoseconds a call, over so many calls.
    fn time(&mut self, engine: Engine, job: Job, text: &[u8], calls: u32) -> f64 {
        let start = clock::nanoseconds();
        for _ in 0..calls {
            self.work(engine, job, text);
        }
        (clock::nanoseconds() - start) / f64::from(calls)
    }

    fn turn<'a>(&mut self, engine: Engine, job: Job, text: &'a [u8]) -> Turn<'a> {
        let mut trial = 1;
        loop {
            let a_call = self.time(engine, job, text, trial);
            if a_call * f64::from(trial) > TRIAL {
                let calls = (TURN / a_call).ceil();
                return Turn { engine, text, calls: calls as u32, took: a_call * calls };
            }
            trial *= 2;
        }
    }

    /// All texts in the same rounds, so that one may be compared with another.
    pub fn times(&mut self, job: Job, texts: &[Text], rounds: u32) -> Vec<Times> {
        let mut turns = Vec::new();
        for text in texts {
            turns.push(self.turn(Engine::Ours, job, &text.bytes));
            turns.push(self.turn(Engine::Yardstick, job, &text.bytes));
        }
        let a_round: f64 = turns.iter().map(|turn| turn.took).sum();
        let mut measured: Vec<Vec<f64>> = vec![Vec::new(); turns.len()];
        if a_round > MOST {
            measured = turns.iter().map(|turn| vec![turn.took / f64::from(turn.calls)]).collect();
        } else {
            let rounds = f64::from(rounds).min(MOST / a_round).ceil() as usize;
            for round in 0..rounds {
                for k in 0..turns.len() {
                    // who goes last in one round goes first in the next
                    let k = if round % 2 == 0 { k } else { turns.len() - 1 - k };
                    let Turn { engine, text, calls, .. } = turns[k];
                    measured[k].push(self.time(engine, job, text, calls));
                }
            }
        }
        let mut series = measured.into_iter().map(Series);
        let mut times = Vec::new();
        while let (Some(ours), Some(yardstick)) = (series.next(), series.next()) {
            times.push(Times { ours, yardstick });
        }
        times
    }
}
