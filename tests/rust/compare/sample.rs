// Stores some hundreds of cases of every outcome with the Rust's answers, in the form that the program call_cases
// reads, and in a second file such as use rows, with the marks of these; or says whether the files have them. The port is
// not asked. tests/rust/run builds it.
#![allow(dead_code)] // what only the comparison uses
mod arithmetic;
mod cases;
mod drawing;
mod expected;
mod model;
mod question;
mod random;
mod rows;
mod rust;
mod store;
mod tape;
mod texts;
mod verdict;
mod zero;

use cases::{Case, arms};
use drawing::{ROWS, among_others, out_length, question, rearranged, rows_before, rows_text, simplify_question};
use expected::{Expected, asked_by_the_rust, expected, expected_of};
use model::{Arm, Hits, Model, add_hits, print_hits};
use oracle::trace::Asked;
use question::{Answer, BAD_LIMIT, Kind, Question};
use random::Random;
use rows::Rows;
use rust::{Rust, written};
use std::collections::{BTreeMap, HashSet};
use std::{env, fs, process::ExitCode};
use store::{BIG, DEEP, LONG_LIST, MOST};
use verdict::{Verdict, verdict};

const SEED: u64 = 600;
const LONGEST: usize = 1600; // bytes of the texts of a case, unless it is one of the few long ones
const LONG: usize = 12_000;
const SIMPLIFY_SEED: u64 = 300;
const SHORT: usize = 360; // bytes of the texts of a case for simplifying, unless it has to be long
const ARM_WANTED: u64 = 3; // hits of each arm, and of each case of it

// How many cases of an outcome are stored.
const WANTED: [(&str, usize); 16] = [
    ("evaluate 0", 190),
    ("evaluate 0 long", 8),
    ("evaluate 6", 1),
    ("evaluate 7", 3),
    ("evaluate 8", 14),
    ("evaluate 9", 60),
    ("evaluate 10", 54),
    ("substitute 0", 110),
    ("substitute 0 long", 6),
    ("substitute 2", 1),
    ("substitute 6", 1),
    ("substitute 7", 6),
    ("substitute 8", 14),
    ("substitute 13", 32),
    ("to_real 0", 50),
    ("to_real other", 50),
];

// The same of simplifying.
const SIMPLIFY_WANTED: [(&str, usize); 9] = [
    ("simplify 0", 196),
    ("simplify 0 long", 4),
    ("simplify 2", 1),
    ("simplify 5", 6),
    ("simplify 6", 3),
    ("simplify 7", 3),
    ("simplify 8", 30),
    ("simplify 9", 40),
    ("simplify 13", 17),
];

const MARKS_SEED: u64 = 800;
const MARKS_LONGEST: usize = 2400; // bytes of the texts

// The same of those that use rows, up to a lack or a refusal. By 2, 6 and 7 few are refused after that, and tests/c has these.
const MARKS_WANTED: [(&str, usize); 7] = [
    ("evaluate 0", 50),
    ("evaluate 9", 40),
    ("evaluate 10", 25),
    ("simplify 0", 60),
    ("simplify 8", 20),
    ("simplify 9", 40),
    ("simplify 13", 15),
];

fn letter(kind: Kind) -> char {
    match kind {
        Kind::Evaluate => 'e',
        Kind::Substitute => 's',
        Kind::ToReal => 'r',
        Kind::Simplify(_) => 'z',
        Kind::Compile => unreachable!("none is stored"),
    }
}

// A line of fields, then the listing, the sheet and what has to be written.
fn stored(q: &Question, expected: &Answer) -> Vec<u8> {
    let texts = (q.listing.len() as u64) << 32 | q.sheet.len() as u64;
    let outputs = (q.out as u64) << 32 | expected.bytes.len() as u64;
    let [a, b, c, d] = expected.words;
    let fields = [q.junk, q.rows as u64, texts, outputs, expected.number, expected.place, a, b, c, d, q.limit()];
    let mut bytes = format!("{}1", letter(q.kind)).into_bytes();
    fields.iter().for_each(|f| bytes.extend(format!("\t{f:016x}").bytes()));
    bytes.push(b'\n');
    bytes.extend(q.listing.bytes().chain(q.sheet.bytes()));
    bytes.extend(&expected.bytes);
    bytes
}

// The same with the letter of the call with marks, and then these: a line of a bit for each row, from the first on.
fn stored_with_marks(q: &Question, expected: &Answer) -> Vec<u8> {
    let mut bytes = stored(q, expected);
    bytes[0] = bytes[0].to_ascii_uppercase();
    let digit = |k: usize| (0..4).fold(0, |digit, i| 2 * digit + u8::from(expected.marks.contains(&(4 * k + i))));
    bytes.extend((0..ROWS / 4).flat_map(|k| format!("{:x}", digit(k)).into_bytes()));
    bytes.push(b'\n');
    bytes
}

fn evaluate(random: &mut Random) -> Option<(Question, Answer)> {
    let case = cases::to_evaluate(random);
    let rust = Rust::new(&case);
    let mut q = question(random, Kind::Evaluate, &case, &rust, MOST);
    if let Err(expected) = rust.refused(&q) {
        return Some((q, expected));
    }
    let evaluated = rust.evaluate();
    if evaluated.asked.len() > 120 || evaluated.asked.iter().any(|a| a.is_corner()) {
        return None;
    }
    q.sheet += &some_rows(random, &evaluated.asked);
    let expected = evaluated.answer(&Rows::read(&q.sheet));
    Some((q, expected))
}

// All rows that are asked for, or some.
fn some_rows(random: &mut Random, rows: &[Asked]) -> String {
    let asked: HashSet<Asked> = rows.iter().copied().collect();
    if random.once_in(3) {
        let rows = rows_before(random, rows);
        return rows_text(random, &rows, &asked);
    }
    let again = random.once_in(4);
    if again { rearranged(random, rows, &asked) } else { rows_text(random, rows, &asked) }
}

// The same for marks: in any order, among others.
fn mixed_rows(random: &mut Random, asked: &[Asked]) -> String {
    let mut rows = asked.to_vec();
    random.shuffle(&mut rows);
    if random.once_in(2) {
        rows.truncate(random.from(1, rows.len().max(1)));
    }
    let text = rows_text(random, &rows, &asked.iter().copied().collect());
    among_others(random, &rows, &text, asked)
}

fn substitute(random: &mut Random) -> Option<(Question, Answer)> {
    let case = cases::to_substitute(random);
    let rust = Rust::new(&case);
    let mut q = question(random, Kind::Substitute, &case, &rust, MOST);
    if let Err(expected) = rust.refused(&q) {
        q.out = 100;
        return Some((q, expected));
    }
    let result = rust.substituted();
    q.out = out_length(random, written(&result, usize::MAX).bytes.len());
    let expected = written(&result, q.out);
    Some((q, expected))
}

fn to_real(random: &mut Random) -> Option<(Question, Answer)> {
    let case = cases::to_real(random);
    let rust = Rust::new(&case);
    let q = question(random, Kind::ToReal, &case, &rust, MOST);
    let expected = rust.refused(&q).err().unwrap_or_else(|| rust.to_real());
    Some((q, expected))
}

// A case for simplifying with the arms that it takes. What is written has to be the Rust's.
fn simplify(random: &mut Random) -> Option<(Question, Answer, Hits)> {
    let case = if random.once_in(20) { arms::to_refuse(random) } else { arms::to_simplify(random) };
    let limit = if random.once_in(2) { 10 } else { random.below(10) as u64 };
    let full = expected(&case.nodes, limit, MOST, usize::MAX, None);
    let mut q = simplify_question(random, &case.nodes, limit, full.model.store.len(), MOST);
    let exact = full.answer.bytes.len();
    q.out = if exact > 0 && random.once_in(4) { out_length(random, exact) } else { exact + random.below(100) };
    q.sheet += &some_rows(random, &full.model.asks.list);
    if random.once_in(40) {
        q.kind = Kind::Simplify(random.pick(&[11, 12, 1 << 32, u64::MAX]));
        return Some((q, Answer::at(BAD_LIMIT, 0), Hits::new()));
    }
    let rows = Rows::read(&q.sheet);
    let expected = expected_of(&q, &case.nodes, Some(&rows));
    let is_late = expected.model.calls > 0; // not while the listing is read
    if [BIG, DEEP].contains(&expected.answer.number) && !is_late {
        return None;
    }
    if expected.answer.number == 0 && !is_the_rusts(&expected.model, &expected.answer, &case, limit) {
        return None;
    }
    Some((q, expected.answer, expected.model.hits))
}

fn is_the_rusts(model: &Model, answer: &Answer, case: &Case, limit: u64) -> bool {
    match verdict(model, &answer.bytes, &Rust::new(case), limit) {
        Verdict::Same => true,
        Verdict::SameIfApart | Verdict::OtherZero | Verdict::NotCompared(_) => false,
        Verdict::Differs(why) => panic!("another result in the Rust: {why}"),
    }
}

// A case for evaluating that uses rows.
fn evaluate_with_marks(random: &mut Random) -> Option<(Question, Answer)> {
    let case = cases::to_evaluate(random);
    let rust = Rust::new(&case);
    let mut q = question(random, Kind::Evaluate, &case, &rust, MOST);
    rust.refused(&q).ok()?;
    let evaluated = rust.evaluate();
    if evaluated.asked.len() > 120 || evaluated.asked.iter().any(|a| a.is_corner()) {
        return None;
    }
    q.sheet += &mixed_rows(random, &evaluated.asked);
    let expected = evaluated.answer(&Rows::read(&q.sheet));
    (!expected.marks.is_empty()).then_some((q, expected))
}

// The same for simplifying. The rows that the model uses have to be those for what the Rust asks.
fn simplify_with_marks(random: &mut Random) -> Option<(Question, Answer)> {
    let case = if random.once_in(20) { arms::to_refuse(random) } else { arms::to_simplify(random) };
    let limit = if random.once_in(2) { 10 } else { random.below(10) as u64 };
    let full = expected(&case.nodes, limit, MOST, usize::MAX, None);
    let asks = asked_by_the_rust(&full, &case.nodes, limit);
    let mut q = simplify_question(random, &case.nodes, limit, full.model.store.len(), MOST);
    let exact = full.answer.bytes.len();
    q.out = if exact > 0 && random.once_in(4) { out_length(random, exact) } else { exact + random.below(100) };
    q.sheet += &mixed_rows(random, &asks);
    let rows = Rows::read(&q.sheet);
    let Expected { model, answer } = expected_of(&q, &case.nodes, Some(&rows));
    assert_eq!(answer.marks, answer.clone().marked(rows.found(&asks)).marks, "other rows than the Rust asks for");
    let is_compared = answer.number != 0 || is_the_rusts(&model, &answer, &case, limit);
    (is_compared && !model.used.is_empty()).then_some((q, answer))
}

fn length(q: &Question, expected: &Answer) -> usize {
    q.listing.len() + q.sheet.len() + expected.bytes.len()
}

// Under which outcome a case is stored, unless it is too long.
fn outcome(q: &Question, expected: &Answer) -> Option<String> {
    let length = length(q, expected);
    let needs_lines = expected.number == LONG_LIST || expected.number == DEEP;
    let long = length > LONGEST && !needs_lines;
    if length > LONG && expected.number != LONG_LIST || long && expected.number != 0 {
        return None;
    }
    let what = match q.kind {
        Kind::Evaluate => "evaluate",
        Kind::Substitute => "substitute",
        Kind::ToReal if expected.number == 0 => "to_real",
        Kind::ToReal => return Some("to_real other".into()),
        Kind::Simplify(_) => "simplify",
        Kind::Compile => return None,
    };
    let with = if long { " long" } else { "" };
    Some(format!("{what} {}{with}", expected.number))
}

// The same for simplifying.
fn simplify_outcome(q: &Question, expected: &Answer) -> Option<String> {
    let length = length(q, expected);
    let has_to_be_long = [LONG_LIST, BIG, DEEP].contains(&expected.number);
    let is_long = expected.number == 0 && LONGEST < length && length < 2 * LONGEST;
    let with = if is_long { " long" } else { "" };
    (length <= SHORT || has_to_be_long || is_long).then(|| format!("simplify {}{with}", expected.number))
}

// What is stored, a table of its outcomes, and how often each arm is taken in what is written.
#[derive(Default)]
struct Sample {
    file: Vec<u8>,
    counts: BTreeMap<String, usize>,
    hits: Hits,
    met: Hits, // in all that was drawn
}

impl Sample {
    fn add(&mut self, what: String, q: &Question, expected: &Answer) {
        *self.counts.entry(what).or_default() += 1;
        self.file.extend(stored(q, expected));
    }

    fn is_rare(&self, arm: &Arm) -> bool {
        self.hits.get(arm).is_none_or(|n| *n < ARM_WANTED)
    }

    // Whether these are arms of which there are too few, as long as there are such.
    fn wants(&self, hits: &Hits) -> bool {
        hits.keys().any(|arm| self.is_rare(arm)) || !self.met.keys().any(|arm| self.is_rare(arm))
    }

    fn of_the_others(&mut self) {
        let mut random = Random::new(SEED);
        let mut wanted: BTreeMap<&str, usize> = WANTED.into_iter().collect();
        while wanted.values().any(|n| *n > 0) {
            let drawn = match random.below(3) {
                0 => evaluate(&mut random),
                1 => substitute(&mut random),
                _ => to_real(&mut random),
            };
            let Some((q, expected)) = drawn else { continue };
            let Some(name) = outcome(&q, &expected) else { continue };
            let Some(left) = wanted.get_mut(name.as_str()).filter(|n| **n > 0) else { continue };
            *left -= 1;
            let what = if q.kind == Kind::ToReal { format!("to_real {}", expected.number) } else { name };
            self.add(what, &q, &expected);
        }
    }

    fn of_simplifying(&mut self) {
        let mut random = Random::new(SIMPLIFY_SEED);
        let mut wanted: BTreeMap<&str, usize> = SIMPLIFY_WANTED.into_iter().collect();
        while wanted.values().any(|n| *n > 0) {
            let Some((q, expected, hits)) = simplify(&mut random) else { continue };
            add_hits(&mut self.met, &hits);
            let Some(name) = simplify_outcome(&q, &expected) else { continue };
            if name == "simplify 0" && !self.wants(&hits) {
                continue;
            }
            let Some(left) = wanted.get_mut(name.as_str()).filter(|n| **n > 0) else { continue };
            *left -= 1;
            if expected.number == 0 {
                add_hits(&mut self.hits, &hits);
            }
            self.add(name, &q, &expected);
        }
    }

    fn new() -> Self {
        let mut sample = Self::default();
        sample.of_the_others();
        sample.of_simplifying();
        sample
    }

    fn of_marks() -> Self {
        let (mut sample, mut random) = (Self::default(), Random::new(MARKS_SEED));
        let mut wanted: BTreeMap<&str, usize> = MARKS_WANTED.into_iter().collect();
        while wanted.values().any(|n| *n > 0) {
            let drawn =
                if random.once_in(2) { evaluate_with_marks(&mut random) } else { simplify_with_marks(&mut random) };
            let Some((q, expected)) = drawn.filter(|(q, expected)| length(q, expected) <= MARKS_LONGEST) else { continue };
            let what = if q.kind == Kind::Evaluate { "evaluate" } else { "simplify" };
            let name = format!("{what} {}", expected.number);
            let Some(left) = wanted.get_mut(name.as_str()).filter(|n| **n > 0) else { continue };
            *left -= 1;
            *sample.counts.entry(format!("{name}, rows used")).or_default() += 1;
            sample.file.extend(stored_with_marks(&q, &expected));
        }
        sample
    }

    fn store(&self, path: &str) {
        for (outcome, n) in &self.counts {
            println!("{n:>12}  {outcome}");
        }
        fs::write(path, &self.file).expect("a file to write");
        println!("{:>12}  cases in {} bytes", self.counts.values().sum::<usize>(), self.file.len());
    }

    fn is_stored(&self, path: &str) -> bool {
        let is_stored = fs::read(path).is_ok_and(|file| file == self.file);
        println!("{path} is {}what the Rust gives", if is_stored { "" } else { "NOT " });
        is_stored
    }
}

fn main() -> ExitCode {
    let words: Vec<String> = env::args().skip(1).collect();
    match words.iter().map(String::as_str).collect::<Vec<_>>()[..] {
        ["--store", path, marks] => {
            let sample = Sample::new();
            print_hits(&sample.hits);
            sample.store(path);
            Sample::of_marks().store(marks);
            ExitCode::SUCCESS
        }
        ["--check", path, marks] => {
            let are_stored = [Sample::new().is_stored(path), Sample::of_marks().is_stored(marks)];
            if are_stored == [true; 2] { ExitCode::SUCCESS } else { ExitCode::FAILURE }
        }
        _ => panic!("--store FILE MARKS or --check FILE MARKS"),
    }
}
