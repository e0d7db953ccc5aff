//! Rows of calls on purses, each call cut after each of its steps in a real file, against a model of the journal written here; and journals wrong at each byte.
#![forbid(unsafe_code)]

use std::fs::{self, File, OpenOptions};
use std::os::unix::fs::FileExt;
use std::path::PathBuf;

use mahrullis::{Gate, Limits, PurseRefusal, Purses, Step, PURSES, PURSE_MOST};

/// What reading back gives: the purses, the records read, and whether no wrong one was met.
type Back = ([u64; PURSES], usize, bool);

/// The journal's rules, once more: a record's 64 bits, most significant first.
fn read_back(journal: &[u8]) -> Back {
    let mut purses = [0; PURSES];
    for (place, bytes) in journal.chunks_exact(8).enumerate() {
        let bits = u64::from_be_bytes(bytes.try_into().expect("eight bytes"));
        if bits & 0xff != 0xa5 {
            return (purses, place, true);
        }
        let (kind, purse, amount, zeros) = (bits >> 60, (bits >> 48 & 0xfff) as usize, bits >> 16 & 0xffff_ffff, bits >> 8 & 0xff);
        let moved = match (kind, purses.get(purse)) {
            (1, Some(holds)) if zeros == 0 && holds + amount <= PURSE_MOST => holds + amount,
            (2, Some(holds)) if zeros == 0 && amount <= *holds => holds - amount,
            _ => return (purses, place, false),
        };
        purses[purse] = moved;
    }
    (purses, journal.len() / 8, true)
}

#[derive(Clone, Copy)]
enum Call<'a> {
    Credit(u64, u64),
    Run(u64, u64, &'a [u8]),
}

/// Makes the first steps of a call, at most so many: each byte is written to the file and synced. Answers how many were made, and the numbers handed on.
fn make(file: &File, journal: Vec<u8>, call: Call<'_>, most: usize) -> Result<(usize, Vec<i64>), PurseRefusal> {
    let mut purses = Purses::new(journal);
    let steps = match call {
        Call::Credit(purse, amount) => purses.credit(purse, amount)?,
        Call::Run(purse, fuel, text) => purses.run(purse, text, Limits::GREATEST.with_fuel(fuel))?.steps,
    };
    let mut numbers = Vec::new();
    let mut made = 0;
    for step in steps.take(most) {
        made += 1;
        match step {
            Step::Store { at, byte } => {
                file.write_all_at(&[byte], at as u64).expect("the byte is written");
                file.sync_data().expect("the byte is synced");
            }
            Step::Hand(number) => numbers.push(number),
        }
    }
    Ok((made, numbers))
}

/// A file of its own for a test.
fn temporary(name: &str) -> PathBuf {
    std::env::temp_dir().join(format!("mahrullis-purses-{}-{name}", std::process::id()))
}

/// What a call does to the purses, and the numbers it hands on, by the rules and by RUN alone.
fn expected(before: &[u64; PURSES], call: Call<'_>) -> ([u64; PURSES], Vec<i64>) {
    let mut after = *before;
    match call {
        Call::Credit(purse, amount) => {
            after[purse as usize] += amount;
            (after, Vec::new())
        }
        Call::Run(purse, fuel, text) => {
            let holds = before[purse as usize];
            let mut gate = Gate::new();
            let report = gate.run(text, Limits::GREATEST.with_fuel(fuel.min(holds))).expect("the text is run");
            after[purse as usize] = holds - report.units;
            (after, report.numbers.to_vec())
        }
    }
}

const ROW: [Call<'_>; 8] = [
    Call::Credit(0, PURSE_MOST),
    Call::Credit(63, 20),
    Call::Run(63, 1_000_000, b"[ECHO 1; ECHO 2; ECHO 3]"),
    Call::Run(63, 1_000_000, b"[ECHO 4; ECHO (add 5 6); ECHO 7; ECHO 8; ECHO 9; ECHO 10]"),
    Call::Run(63, 1_000_000, b"[ECHO 11]"),
    Call::Run(0, 3, b"[ECHO (add 1 2)]"),
    Call::Credit(7, 0),
    Call::Run(0, 1_000_000, b"[VAR x int; SET x 0; WHILE (lt x 5) [ECHO x; SET x (add x 1)]]"),
];

#[test]
fn every_cut_of_a_row_of_calls() {
    let path = temporary("row");
    let mut journal = vec![0; 8 * (ROW.len() + 1) + 3];
    let mut cuts = 0;
    for call in ROW {
        let (before, place, sound) = read_back(&journal);
        assert!(sound);
        let (after, numbers) = expected(&before, call);
        let all = 8 + numbers.len();
        let mut whole = Vec::new();
        for cut in 0..=all + 1 {
            fs::write(&path, &journal).expect("the journal is written");
            let file = OpenOptions::new().read(true).write(true).open(&path).expect("it is opened");
            let (made, handed) = make(&file, journal.clone(), call, cut).expect("the call is taken");
            drop(file);
            assert_eq!(made, cut.min(all));
            assert_eq!(handed, numbers[..made.saturating_sub(8)]);
            let left = fs::read(&path).expect("the journal is read");
            let marked = cut >= 8;
            let now = if marked { after } else { before };
            assert_eq!(read_back(&left), (now, place + usize::from(marked), true));
            assert_eq!(Purses::new(left.clone()).show(), Ok(now));
            // the place of the cut record is used next, whatever the cut left there
            let mut purses = Purses::new(left.clone());
            assert_eq!(purses.credit(5, 1).expect("the next call is taken").count(), 8);
            let mut next = now;
            next[5] += 1;
            assert_eq!(read_back(purses.journal()), (next, place + usize::from(marked) + 1, true));
            cuts += 1;
            whole = left;
        }
        journal = whole;
    }
    fs::remove_file(&path).expect("the file is removed");
    let (purses, place, _) = read_back(&journal);
    assert_eq!((purses[63], place), (0, ROW.len()));
    println!("{cuts} cuts of {} calls", ROW.len());
}

#[test]
fn journals_wrong_at_each_byte() {
    let mut purses = Purses::new(vec![0; 32]);
    purses.credit(3, 500).expect("a credit").for_each(drop);
    purses.run(3, b"[ECHO 1]", Limits::GREATEST).expect("a run").steps.for_each(drop);
    purses.credit(3, 70_000).expect("a credit").for_each(drop);
    let good = purses.journal().to_vec();
    let mut wrong = 0;
    for at in 0..good.len() {
        for byte in 0..=255 {
            let mut journal = good.clone();
            journal[at] = byte;
            let (expected, _, sound) = read_back(&journal);
            let mut purses = Purses::new(journal.clone());
            if sound {
                assert_eq!(purses.show(), Ok(expected));
                continue;
            }
            wrong += 1;
            assert_eq!(purses.show(), Err(PurseRefusal::Journal));
            assert_eq!(purses.credit(99, u64::MAX).map(drop), Err(PurseRefusal::Journal));
            assert_eq!(purses.run(3, b"[", Limits::GREATEST).map(drop), Err(PurseRefusal::Journal));
            assert_eq!(purses.journal(), journal);
        }
    }
    println!("{wrong} wrong journals");
}

#[test]
fn refusals_in_their_order() {
    let text = b"[ECHO 1]";
    let beyond = Limits::GREATEST.with_fuel(1_000_001);
    let mut purses = Purses::new(vec![0; 16]);
    assert_eq!(purses.credit(64, 1).map(drop), Err(PurseRefusal::Purse));
    assert_eq!(purses.run(64, text, beyond).map(drop), Err(PurseRefusal::Purse));
    assert_eq!(purses.credit(1, PURSE_MOST + 1).map(drop), Err(PurseRefusal::Purse));
    assert_eq!(purses.run(1, text, beyond).map(drop).map_err(PurseRefusal::number), Err(2));
    assert_eq!(purses.run(1, b"[ECHO]", Limits::GREATEST).map(drop).map_err(PurseRefusal::number), Err(7));
    assert_eq!(purses.journal(), [0; 16]);
    assert_eq!(purses.credit(1, PURSE_MOST).expect("the top").count(), 8);
    assert_eq!(purses.credit(1, 1).map(drop), Err(PurseRefusal::Purse));
    assert_eq!(purses.credit(2, 1).expect("the last record").count(), 8);
    assert_eq!(purses.credit(64, 1).map(drop), Err(PurseRefusal::Purse));
    assert_eq!(purses.credit(1, 1).map(drop), Err(PurseRefusal::Purse));
    assert_eq!(purses.credit(2, 1).map(drop), Err(PurseRefusal::Full));
    assert_eq!(purses.run(2, b"[ECHO]", beyond).map(drop), Err(PurseRefusal::Full));
    for length in 0..17 {
        let mut purses = Purses::new(vec![0; length]);
        for _ in 0..length / 8 {
            assert_eq!(purses.credit(0, 1).expect("there is room").count(), 8);
        }
        assert_eq!(purses.credit(0, 1).map(drop), Err(PurseRefusal::Full));
    }
}

/// An empty purse pays for no entry, and the charge of 0 is written all the same.
#[test]
fn an_empty_purse() {
    let mut purses = Purses::new(vec![0; 8]);
    let run = purses.run(9, b"[ECHO 1]", Limits::GREATEST).expect("it is run");
    assert_eq!((run.units, run.end.to_string().starts_with("stopped 20")), (0, true));
    assert_eq!(run.steps.count(), 8);
    assert_eq!(purses.journal(), [0x20, 9, 0, 0, 0, 0, 0, 0xa5]);
}
