//! The archive over random texts, limits, table lengths and contents: after each call every entry of every table, with those around it, is held against what
//! document 01 says is left behind. Each table is a random part of a larger area, and each area has an image that says what must stand in it.
#![forbid(unsafe_code)]

mod texts;

use mahrullis::raw::{self, Common, Running};
use mahrullis::{Gate, Limits};
use texts::{random_text, Random};

const SEED: u64 = 1;
const INPUTS: usize = 120_000;

/// Entries before and behind a table at its longest, and how many more than it needs a table may have.
const GUARD: usize = 64;
const SPARE: usize = 32;

/// An entry of a table.
trait Entry: Copy + PartialEq + Default {
    fn of(word: u64) -> Self;
}

impl Entry for u64 {
    fn of(word: u64) -> u64 {
        word
    }
}

impl Entry for i64 {
    fn of(word: u64) -> i64 {
        word as i64
    }
}

struct Table<T> {
    name: &'static str,
    /// the longest that any limits ask for, and what these ask for
    most: usize,
    needed: usize,
    /// the part that is lent
    offset: usize,
    length: usize,
    area: Vec<T>,
    image: Vec<T>,
}

impl<T: Entry> Table<T> {
    fn new(name: &'static str, most: usize, random: &mut Random) -> Table<T> {
        let area: Vec<T> = (0..most + 2 * GUARD + 2 * SPARE).map(|_| T::of(random.word())).collect();
        Table { name, most, needed: most, offset: GUARD, length: most, image: area.clone(), area }
    }

    fn set(&mut self, i: usize, word: u64) {
        self.area[i] = T::of(word);
        self.image[i] = T::of(word);
    }

    /// Chooses the part: as long as needed, often some more, at times shorter. New contents at random places and about its ends.
    fn choose(&mut self, limit: u64, random: &mut Random) {
        self.needed = usize::try_from(limit).unwrap_or(self.most).min(self.most);
        self.offset = GUARD + random.below(SPARE);
        self.length = self.needed + if random.one_in(2) { random.below(SPARE) } else { 0 };
        if random.one_in(80) && self.needed > 0 {
            self.length = if random.one_in(2) { self.needed - 1 } else { random.below(self.needed) };
        }
        if random.one_in(2 + self.most / 80) {
            (0..self.area.len()).for_each(|i| self.set(i, random.word()));
        }
        for _ in 0..24 {
            let (i, word) = (random.below(self.area.len()), random.word());
            self.set(i, word);
        }
        for end in [self.offset, self.offset + self.length, self.offset + self.needed] {
            (end - 3..end + 3).for_each(|i| self.set(i, random.word()));
        }
    }

    fn is_short(&self) -> bool {
        self.length < self.needed
    }

    fn lend(&mut self) -> &mut [T] {
        &mut self.area[self.offset..self.offset + self.length]
    }

    /// The first entries that were needed, as they are now.
    fn now(&self) -> &[T] {
        &self.area[self.offset..self.offset + self.needed]
    }

    fn expect_zeros(&mut self) {
        let (from, to) = (self.offset, self.offset + self.needed);
        self.image[from..to].fill(T::default());
    }

    /// The first entries may be what they are.
    fn accept(&mut self, count: usize) {
        let (from, to) = (self.offset, self.offset + count);
        self.image[from..to].copy_from_slice(&self.area[from..to]);
    }

    fn compare(&self, input: usize) {
        if self.area != self.image {
            let at = (0..self.area.len()).find(|i| self.area[*i] != self.image[*i]).unwrap();
            panic!("seed {SEED}, input {input}: {} changed at {}, which it may not, as lent {}", self.name, at as i64 - self.offset as i64, self.length);
        }
    }
}

/// Mostly in range and often small, at times the greatest and beyond.
fn some_limit(greatest: u64, small: usize, random: &mut Random) -> u64 {
    match random.below(160) {
        0 => greatest + 1,
        1 => [u64::MAX, u64::MAX / 2 + 1, 1 << 32, 5_000_000, greatest + 1 + (random.word() >> 1)][random.below(5)],
        2..=60 => random.below(small) as u64,
        61..=90 => random.below(greatest as usize + 1) as u64,
        _ => greatest,
    }
}

fn some_limits(random: &mut Random) -> Limits {
    let most = Limits::GREATEST;
    let fuel = match random.below(60) {
        0 => some_limit(most.fuel, 60, random),
        1..=20 => random.below(80) as u64,
        21..=40 => random.below(500) as u64,
        _ => 3000,
    };
    let depth = some_limit(most.depth, 12, random);
    let bindings = some_limit(most.bindings, 20, random);
    Limits::new(fuel, depth, bindings, some_limit(most.cells, 4, random), some_limit(most.output, 4, random))
}

/// Every table that a job may be lent.
struct Tables {
    tree: Table<u64>,
    /// words, stack, scopes, notes
    work: [Table<u64>; 4],
    waiting: Table<u64>,
    bindings: Table<u64>,
    cells: Table<u64>,
    output: Table<i64>,
    report: Table<u64>,
    part: Table<u64>,
}

impl Tables {
    fn new(random: &mut Random) -> Tables {
        Tables {
            tree: Table::new("tree", raw::TREE_ENTRIES, random),
            work: [
                Table::new("words", raw::WORDS_ENTRIES, random),
                Table::new("stack", raw::STACK_ENTRIES, random),
                Table::new("scopes", raw::SCOPES_ENTRIES, random),
                Table::new("notes", raw::NOTES_ENTRIES, random),
            ],
            waiting: Table::new("waiting", raw::WAITING_ENTRIES, random),
            bindings: Table::new("bindings", 8192, random),
            cells: Table::new("cells", 8192, random),
            output: Table::new("output", 4096, random),
            report: Table::new("report", raw::REPORT_ENTRIES, random),
            part: Table::new("part", raw::PART_ENTRIES, random),
        }
    }

    fn choose_common(&mut self, random: &mut Random) {
        self.tree.choose(u64::MAX, random);
        self.work.iter_mut().for_each(|table| table.choose(u64::MAX, random));
        self.report.choose(u64::MAX, random);
    }

    fn choose_running(&mut self, limits: Limits, random: &mut Random) {
        self.waiting.choose(u64::MAX, random);
        self.bindings.choose(limits.bindings.saturating_mul(2), random);
        self.cells.choose(limits.cells.saturating_mul(2), random);
        self.output.choose(limits.output, random);
    }

    fn some_common_is_short(&self) -> bool {
        self.tree.is_short() || self.work.iter().any(Table::is_short)
    }

    fn some_running_is_short(&self) -> bool {
        self.waiting.is_short() || self.bindings.is_short() || self.cells.is_short() || self.output.is_short()
    }

    fn check(&mut self, text: &[u8]) -> u64 {
        let [words, stack, scopes, notes] = &mut self.work;
        let common = Common { tree: self.tree.lend(), words: words.lend(), stack: stack.lend(), scopes: scopes.lend(), notes: notes.lend() };
        raw::check(text, common, self.report.lend())
    }

    fn run(&mut self, text: &[u8], limits: Limits) -> u64 {
        let [words, stack, scopes, notes] = &mut self.work;
        let common = Common { tree: self.tree.lend(), words: words.lend(), stack: stack.lend(), scopes: scopes.lend(), notes: notes.lend() };
        let running = Running { waiting: self.waiting.lend(), bindings: self.bindings.lend(), cells: self.cells.lend(), output: self.output.lend() };
        raw::run(text, limits, common, running, self.report.lend())
    }

    /// Nodes, then zeros: the kinds known, the places in the text and rising, children and siblings further on in the tree.
    fn expect_tree(&mut self, text: &[u8]) {
        self.tree.expect_zeros();
        let tree = self.tree.now();
        let count = tree.iter().position(|word| *word == 0).unwrap_or(tree.len());
        assert!(count >= 3 && tree[0] & 0xffff_ffff_0000_ffff == 1 << 48, "the root is a block at 0 without a sibling");
        for (i, word) in tree[..count].iter().enumerate() {
            let [kind, place, child, sibling] = [48, 32, 16, 0].map(|low| (word >> low & 0xffff) as usize);
            assert!((1..=33).contains(&kind) && place < text.len(), "node {i}");
            assert!(i == 0 || (tree[i - 1] >> 32 & 0xffff) < place as u64, "node {i}: text order");
            assert!(child == 0 || (child == i + 1 && child < count), "node {i}: child");
            assert!(sibling == 0 || (i < sibling && sibling < count), "node {i}: sibling");
        }
        self.tree.accept(count);
    }

    /// A report of no run: no counts. Of a run: within the limits, and a limit stop has reached its limit. UNSET's second place is a VAR's or an alloc's.
    fn expect_report(&mut self, answer: u64, text: &[u8], limits: Option<Limits>) -> usize {
        let &[code, place, units, bindings, cells, numbers, made] = self.report.now() else { unreachable!() };
        self.report.accept(raw::REPORT_ENTRIES);
        assert_eq!(code, answer);
        match answer {
            0..=3 => assert_eq!(place, 0),
            7 => assert!(place as usize <= text.len()),
            _ => assert!((place as usize) < text.len()),
        }
        match answer {
            27 => assert!(matches!(text[made as usize], b'V' | b'('), "made at {made}"),
            _ => assert_eq!(made, 0),
        }
        match limits {
            Some(limits) if answer == 0 || answer >= 20 => {
                assert!(units <= limits.fuel && bindings <= limits.bindings && cells <= limits.cells && numbers <= limits.output);
                assert!(answer != 20 || units == limits.fuel);
                // an alloc may want more than one
                assert!(answer != 22 || text[place as usize] == b'(' || cells == limits.cells);
                assert!(answer != 24 || numbers == limits.output);
            }
            _ => assert_eq!([units, bindings, cells, numbers], [0; 4]),
        }
        numbers as usize
    }

    /// What CHECK, or RUN with its limits, owes after an answer, put into the images. `early` is the answer 1 to 3 where one must be given, else 0.
    fn expect(&mut self, answer: u64, early: u64, text: &[u8], limits: Option<Limits>) {
        match early {
            0 => assert!(matches!(answer, 0 | 4..=10) || (limits.is_some() && matches!(answer, 20..=29)), "an answer of this job: {answer}"),
            _ => assert_eq!(answer, early),
        }
        if self.report.is_short() {
            return;
        }
        let numbers = self.expect_report(answer, text, limits);
        if early != 0 {
            return;
        }
        self.work.iter_mut().for_each(Table::expect_zeros);
        if limits.is_some() {
            self.waiting.expect_zeros();
        }
        if matches!(answer, 4..=10) {
            self.tree.expect_zeros();
            return;
        }
        self.expect_tree(text);
        if limits.is_some() {
            self.bindings.expect_zeros();
            self.cells.expect_zeros();
            self.output.accept(numbers);
        }
    }

    fn compare_common(&self, input: usize) {
        self.tree.compare(input);
        self.work.iter().for_each(|table| table.compare(input));
        self.report.compare(input);
    }

    fn compare_running(&self, input: usize) {
        self.waiting.compare(input);
        self.bindings.compare(input);
        self.cells.compare(input);
        self.output.compare(input);
    }
}

fn early_answer(text: &[u8], limits: Option<Limits>, report_is_short: bool, table_is_short: bool) -> u64 {
    if report_is_short {
        3
    } else if text.len() > raw::TEXT_MOST {
        1
    } else if limits.is_some_and(|limits| !limits.are_admitted()) {
        2
    } else if table_is_short {
        3
    } else {
        0
    }
}

fn check_input(tables: &mut Tables, input: usize, text: &[u8], random: &mut Random) -> u64 {
    tables.choose_common(random);
    let answer = tables.check(text);
    let early = early_answer(text, None, tables.report.is_short(), tables.some_common_is_short());
    tables.expect(answer, early, text, None);
    tables.compare_common(input);
    answer
}

fn run_input(tables: &mut Tables, input: usize, text: &[u8], random: &mut Random) -> u64 {
    let limits = some_limits(random);
    tables.choose_common(random);
    tables.choose_running(limits, random);
    let answer = tables.run(text, limits);
    let short = tables.some_common_is_short() || tables.some_running_is_short();
    let early = early_answer(text, Some(limits), tables.report.is_short(), short);
    tables.expect(answer, early, text, Some(limits));
    tables.compare_common(input);
    tables.compare_running(input);
    answer
}

fn name_input(part: &mut Table<u64>, input: usize, text: &[u8], random: &mut Random) -> u64 {
    let at = if random.one_in(20) { random.word() as usize } else { random.below(text.len() + 3) };
    part.choose(u64::MAX, random);
    let answer = raw::name(text, at, part.lend());
    assert_eq!(answer, if part.is_short() { 3 } else { 0 });
    if !part.is_short() {
        let offset = at.min(text.len());
        let rest = &text[offset..];
        let starts = rest.first().is_some_and(u8::is_ascii_alphabetic);
        let length = if starts { rest.iter().take_while(|byte| byte.is_ascii_alphanumeric()).count() } else { 0 };
        assert_eq!(part.now(), [offset as u64, length as u64]);
        part.accept(raw::PART_ENTRIES);
    }
    part.compare(input);
    answer
}

/// CHECK over a gate's own tables, with other contents, agrees with RUN.
fn check_too(gate: &mut Gate, tables: &Tables, text: &[u8], answer: u64) {
    match gate.check(text) {
        Ok(tree) => {
            assert!(answer == 0 || answer >= 20);
            assert_eq!(tree.words(), &tables.tree.now()[..tree.words().len()]);
        }
        Err(refusal) => assert_eq!([refusal.code.number(), refusal.place as u64], tables.report.now()[..2]),
    }
}

#[test]
fn only_what_is_promised_changes() {
    let random = &mut Random(SEED);
    let mut tables = Tables::new(random);
    let mut gate = Gate::new();
    let mut seen = [[0; 30]; 3];
    for input in 0..INPUTS {
        let text = random_text(random);
        let before = text.clone();
        let (job, answer) = match random.below(20) {
            0..=8 => (0, check_input(&mut tables, input, &text, random)),
            9..=16 => (1, run_input(&mut tables, input, &text, random)),
            _ => (2, name_input(&mut tables.part, input, &text, random)),
        };
        assert_eq!(text, before, "seed {SEED}, input {input}: the text changed");
        if job == 1 && !(1..=3).contains(&answer) && random.one_in(4) {
            check_too(&mut gate, &tables, &text, answer);
        }
        seen[job][answer as usize] += 1;
    }
    println!("seed {SEED}, {INPUTS} inputs, no entry changed that may not");
    let may = [vec![0, 1, 3, 4, 5, 6, 7, 8, 9, 10], (0..=10).chain(20..=29).collect(), vec![0, 3]];
    for (job, name) in ["CHECK", "RUN", "NAME"].iter().enumerate() {
        let counts: Vec<String> = may[job].iter().map(|answer| format!("{answer}: {}", seen[job][*answer])).collect();
        println!("{name} {}", counts.join(", "));
        assert!(may[job].iter().all(|answer| seen[job][*answer] > 0), "{name}: an answer was never seen");
    }
}
