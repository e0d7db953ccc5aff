//! What `tools/bench` prints.

use std::slice;

use yardstick::{Limits, MOST_BYTES};

use crate::engines::{Engines, Job};
use crate::measure::Times;
use crate::texts::{self, Text};

const MICROSECOND: f64 = 1e3;
const MILLISECOND: f64 = 1e6;
const SECOND: f64 = 1e9;

/// Nanoseconds of ours.
fn a_byte(text: &Text, times: &Times) -> f64 {
    times.ours.median() / text.bytes.len() as f64
}

/// The heading of a table: a column of its own, both times in a unit, and their ratio.
fn title(what: &str, own: &str, unit: &str) {
    let (ours, yardstick) = (format!("ours {unit}"), format!("Rust {unit}"));
    println!("\n{what:<52}{:>7}{own:>9}{ours:>12}{yardstick:>10}{:>9}{:>17}", "bytes", "ratio", "quartiles");
}

/// A line of it: times as nanoseconds over the unit.
fn line(text: &Text, own: impl ToString, times: &Times, unit: f64) {
    let Text { name, bytes } = text;
    let (ours, yardstick, ratios) = (times.ours.median() / unit, times.yardstick.median() / unit, times.ours.to(&times.yardstick));
    let (low, ratio, high) = (ratios.quartile(1), ratios.median(), ratios.quartile(3));
    // of a text that was called once there are none
    let quartiles = if low < high { format!("{low:.2} - {high:.2}") } else { String::new() };
    let row = format!("  {name:<50}{:>7}{:>9}{ours:>12.2}{yardstick:>10.2}{ratio:>9.2}{quartiles:>17}", bytes.len(), own.to_string());
    println!("{}", row.trim_end());
}

struct Figures {
    engines: Engines,
    rounds: u32,
    /// Nanoseconds of ours, the most that was seen.
    a_unit_at_worst: f64,
    a_byte_at_worst: f64,
}

impl Figures {
    fn runs(&mut self, texts: &[Text]) -> Vec<Times> {
        self.engines.times(Job::Run, texts, self.rounds)
    }

    fn checks(&mut self, texts: &[Text]) -> Vec<Times> {
        let times = self.engines.times(Job::Check, texts, self.rounds);
        for (text, times) in texts.iter().zip(&times) {
            self.a_byte_at_worst = self.a_byte_at_worst.max(a_byte(text, times));
        }
        times
    }

    fn long_runs(&mut self, texts: &[Text]) {
        title("RUN, a unit of long programs", "units", "ns");
        for (text, times) in texts.iter().zip(self.runs(texts)) {
            let units = self.engines.units(&text.bytes);
            line(text, units, &times, f64::from(units));
        }
    }

    fn short_runs(&mut self, texts: &[Text]) {
        title("RUN, whole calls of short tariffs", "units", "us");
        for (text, times) in texts.iter().zip(self.runs(texts)) {
            line(text, self.engines.units(&text.bytes), &times, MICROSECOND);
        }
    }

    fn bytes_checked(&mut self, what: &str, texts: &[Text]) {
        title(what, "ns/byte", "us");
        for (text, times) in texts.iter().zip(self.checks(texts)) {
            line(text, format!("{:.1}", a_byte(text, &times)), &times, MICROSECOND);
        }
    }

    /// Each text to the one before it.
    fn growth(&mut self, what: &str, texts: &[Text]) {
        title(what, "grows", "us");
        let mut last: Option<Times> = None;
        for (text, times) in texts.iter().zip(self.checks(texts)) {
            let grows = last.map_or(String::new(), |last| format!("{:.2}", times.ours.to(&last.ours).median()));
            line(text, grows, &times, MICROSECOND);
            last = Some(times);
        }
    }

    /// Each unit to that of the first text.
    fn units_in_force(&mut self, texts: &[Text]) {
        title("RUN, a unit with n constants in force", "to none", "ns");
        let all = self.runs(texts);
        let units: Vec<f64> = texts.iter().map(|text| f64::from(self.engines.units(&text.bytes))).collect();
        for ((text, times), units_here) in texts.iter().zip(&all).zip(&units) {
            let to_none = times.ours.to(&all[0].ours).median() * units[0] / units_here;
            line(text, format!("{to_none:.2}"), times, *units_here);
        }
    }

    /// One by one: they are long.
    fn dear_runs(&mut self, texts: &[Text]) {
        title("RUN, the dearest texts known, until the fuel is out", "ns/unit", "ms");
        for text in texts {
            let times = self.runs(slice::from_ref(text)).remove(0);
            let a_unit = times.ours.median() / f64::from(self.engines.units(&text.bytes));
            self.a_unit_at_worst = self.a_unit_at_worst.max(a_unit);
            line(text, format!("{a_unit:.1}"), &times, MILLISECOND);
        }
    }

    fn at_worst(&self) {
        let (fuel, a_unit, a_byte) = (Limits::GREATEST.fuel, self.a_unit_at_worst, self.a_byte_at_worst);
        println!();
        println!("At worst here, a unit of RUN: {a_unit:.1} ns, so {:.2} s for {fuel} units", a_unit * fuel as f64 / SECOND);
        println!("At worst here, a byte of CHECK: {a_byte:.1} ns, so {:.2} ms for {MOST_BYTES} bytes", a_byte * MOST_BYTES as f64 / MILLISECOND);
    }
}

pub fn print(rounds: u32) {
    println!("Processor time of the thread, medians of up to {rounds} rounds in turns, in one process; ratios of ours to Rust's, round by round");
    let mut figures = Figures { engines: Engines::default(), rounds, a_unit_at_worst: 0.0, a_byte_at_worst: 0.0 };
    figures.long_runs(&texts::workloads());
    figures.short_runs(&texts::tariffs());
    figures.bytes_checked("CHECK, usual texts", &texts::usual_checks());
    figures.bytes_checked("CHECK, dear texts", &texts::dear_checks());
    for (what, list) in texts::growths() {
        figures.growth(&format!("CHECK, {what}"), &list);
    }
    figures.units_in_force(&texts::units_in_force());
    figures.dear_runs(&texts::dear_runs());
    figures.at_worst();
}
