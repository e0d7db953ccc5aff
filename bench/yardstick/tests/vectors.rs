//! The yardstick answers every vector of the repository as expected: what is slower or quicker than it does the same job.
#![forbid(unsafe_code)]

use yardstick::vectors::{check_cases, run_cases, shown};
use yardstick::Yardstick;

/// Fails with those that differ, the first few in full.
fn none_differ(differ: &[String], tried: usize) {
    const SHOWN: usize = 10;
    assert!(tried > 0, "there are no vectors");
    assert!(differ.is_empty(), "{} of {tried} differ:\n{}", differ.len(), differ[..differ.len().min(SHOWN)].join("\n"));
}

#[test]
fn run() {
    let cases = run_cases();
    let mut yardstick = Yardstick::new();
    let mut differ = Vec::new();
    for case in &cases {
        let report = yardstick.run(&case.text, case.limits);
        if report != case.report || yardstick.numbers() != case.numbers {
            differ.push(format!("{:?} and not {:?}: {}", report, case.report, shown(&case.text)));
        }
    }
    none_differ(&differ, cases.len());
}

#[test]
fn check() {
    let cases = check_cases();
    let mut yardstick = Yardstick::new();
    let mut differ = Vec::new();
    for case in &cases {
        let answer = yardstick.check(&case.text).map_or_else(|refusal| (refusal.code, refusal.place), |()| (0, 0));
        if answer != case.answer || yardstick.tree() != case.tree {
            differ.push(format!("{:?} and not {:?}: {}", answer, case.answer, shown(&case.text)));
        }
    }
    none_differ(&differ, cases.len());
}
