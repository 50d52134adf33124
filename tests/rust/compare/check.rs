// One case after another: drawn, asked of the port, compared with the Rust, and counted.
use crate::cases;
use crate::drawing::{ROWS, among_others, out_length, question, rearranged, rows_before, rows_text};
use crate::model::{Hits, add_hits, all_hit, print_hits};
use crate::origins::origins;
use crate::port;
use crate::question::{Answer, Kind, Question};
use crate::random::Random;
use crate::rows::Rows;
use crate::rust::{Evaluated, Rust, reads_back, written};
use crate::texts::row;
use oracle::trace::Asked;
use std::collections::{BTreeMap, HashSet};

mod simplify;
mod tape;

const SHOWN: u64 = 5;
const NEEDS: [&str; 5] = ["NEED: sin", "NEED: cos", "NEED: exp", "NEED: sqrt", "NEED: pow"];

#[derive(Default)]
pub struct Tally {
    cases: BTreeMap<(&'static str, String), u64>,
    tries: BTreeMap<(&'static str, String), u64>, // that are no cases of their own
    notes: BTreeMap<&'static str, u64>,
    compared: u64,
    zeros: u64,
    marked: u64,   // rows that had to be marked
    unmarked: u64, // and those that had not, beside them
    traced: u64,   // lines that had to have a line as their origin
    made: u64,     // and those that had to have none
    differ: u64,
    hits: Hits, // of the simplifier's arms
}

impl Tally {
    fn count(&mut self, what: &'static str, outcome: &str) {
        *self.cases.entry((what, outcome.to_string())).or_default() += 1;
    }

    fn tried(&mut self, what: &'static str, outcome: &str) {
        *self.tries.entry((what, outcome.to_string())).or_default() += 1;
    }

    fn note(&mut self, what: &'static str) {
        *self.notes.entry(what).or_default() += 1;
    }

    fn add_hits(&mut self, hits: &Hits) {
        add_hits(&mut self.hits, hits);
    }

    fn differs(&mut self, q: &Question, why: &str) {
        self.differ += 1;
        if self.differ <= SHOWN {
            println!("DIFFERS, {:?}: {why}\nrows {}, output {}, junk {:#x}", q.kind, q.rows, q.out, q.junk);
            println!("{}\n{}", q.listing, q.sheet);
        }
    }

    // Asks the port and compares; what it wrote is handed back.
    fn compare(&mut self, q: &Question, expected: &Answer) -> Vec<u8> {
        self.compared += 1;
        let got = match port::ask(q) {
            Ok(got) => got,
            Err(why) => {
                self.differs(q, why);
                return vec![];
            }
        };
        if got != *expected {
            if got.clone().with_one_zero() == expected.clone().with_one_zero() {
                self.zeros += 1;
            } else {
                self.differs(q, &format!("the Rust\n{expected:x?}\nthe port\n{got:x?}"));
            }
        }
        self.compare_played(q, &got);
        self.count_marks(q, &got);
        self.count_origins(q, &got);
        got.bytes
    }

    fn count_marks(&mut self, q: &Question, got: &Answer) {
        let marked = got.marks.len();
        if marked > 0 {
            self.marked += marked as u64;
            self.unmarked += (Rows::read(&q.sheet).count - marked) as u64;
        }
    }

    fn count_origins(&mut self, q: &Question, got: &Answer) {
        if q.traces() && got.number == 0 {
            let all = origins(&q.listing, &String::from_utf8_lossy(&got.bytes));
            let from_lines = all.iter().flatten().count();
            self.traced += from_lines as u64;
            self.made += (all.len() - from_lines) as u64;
        }
    }

    fn evaluate(&mut self, random: &mut Random) {
        let case = cases::to_evaluate(random);
        let rust = Rust::new(&case);
        case.features().into_iter().for_each(|f| self.note(f));
        let mut q = question(random, Kind::Evaluate, &case, &rust, usize::MAX);
        if let Err(expected) = rust.refused(&q) {
            self.compare(&q, &expected);
            return self.count("evaluate", &format!("refused {}", expected.number));
        }
        let evaluated = rust.evaluate();
        let bound = std::mem::take(&mut q.sheet);
        let outcome = self.rounds(random, &mut q, &bound, &evaluated);
        self.count("evaluate", &outcome);
    }

    // Asks until no row is lacking.
    fn rounds(&mut self, random: &mut Random, q: &mut Question, bound: &str, evaluated: &Evaluated) -> String {
        let asked: HashSet<Asked> = evaluated.asked.iter().copied().collect();
        let corner = evaluated.asked.iter().any(|a| a.is_corner());
        let mut rows = if corner { vec![] } else { rows_before(random, &evaluated.asked) };
        let mut text = rows_text(random, &rows, &asked);
        loop {
            q.sheet = format!("{bound}{}", among_others(random, &rows, &text, &evaluated.asked));
            let there = Rows::read(&q.sheet);
            let expected = evaluated.answer(&there);
            self.compare(q, &expected);
            let Some(next) = evaluated.lacking(&there) else {
                self.compare_interned(q, evaluated, &expected);
                self.again(random, q, bound, &rows, evaluated);
                return self.outcome(&expected, rows.len());
            };
            self.note(NEEDS[next.operation as usize - 1]);
            if next.is_corner() {
                return "not compared: corner".into();
            }
            if rows.len() == ROWS {
                return "not compared: over 256 rows".into();
            }
            text += &row(next, next.value());
            rows.push(next);
        }
    }

    fn again(&mut self, random: &mut Random, q: &mut Question, bound: &str, rows: &[Asked], evaluated: &Evaluated) {
        if !rows.is_empty() && random.once_in(3) {
            let asked = evaluated.asked.iter().copied().collect();
            q.sheet = format!("{bound}{}", rearranged(random, rows, &asked));
            self.compare(q, &evaluated.answer(&Rows::read(&q.sheet)));
            self.note("sheet: rows in another order, or twice");
        }
    }

    // Whether the Rust makes equal nodes one must not show but in the sign of a zero.
    fn compare_interned(&mut self, q: &Question, evaluated: &Evaluated, expected: &Answer) {
        let interned = Answer { marks: expected.marks.clone(), ..evaluated.interned_answer() };
        if interned == *expected {
            return;
        }
        if interned.clone().with_one_zero() == expected.clone().with_one_zero() {
            self.note("value: another zero if the Rust makes equal nodes one");
        } else {
            self.differs(q, &format!("the Rust, equal nodes made one, or not\n{interned:x?}\n{expected:x?}"));
        }
    }

    fn outcome(&mut self, expected: &Answer, rows: usize) -> String {
        if expected.number == 0 {
            let [re, im] = [expected.words[0], expected.words[1]].map(f64::from_bits);
            self.note(if re.is_nan() || im.is_nan() {
                "value: a NaN"
            } else if re.is_infinite() || im.is_infinite() {
                "value: an infinity, no NaN"
            } else {
                "value: both parts finite"
            });
        }
        let with = if rows == 0 { "no rows" } else { "rows" };
        if expected.number == 0 { format!("value, {with}") } else { format!("refused {}, {with}", expected.number) }
    }

    fn substitute(&mut self, random: &mut Random) {
        let case = cases::to_substitute(random);
        let rust = Rust::new(&case);
        case.features().into_iter().for_each(|f| self.note(f));
        let mut q = question(random, Kind::Substitute, &case, &rust, usize::MAX);
        if let Err(expected) = rust.refused(&q) {
            q.out = random.pick(&[0, 1, 100_000]);
            self.compare(&q, &expected);
            return self.count("substitute", &format!("refused {}", expected.number));
        }
        let result = rust.substituted();
        q.out = out_length(random, written(&result, usize::MAX).bytes.len());
        let expected = written(&result, q.out);
        let bytes = self.compare(&q, &expected);
        if expected.number != 0 {
            return self.count("substitute", &format!("refused {}", expected.number));
        }
        if !reads_back(&bytes, &result) {
            self.differs(
                &q,
                &format!(
                    "what was written does not read back to the Rust's tree:\n{}",
                    String::from_utf8_lossy(&bytes)
                ),
            );
        }
        self.count("substitute", "written");
    }

    fn to_real(&mut self, random: &mut Random) {
        let case = cases::to_real(random);
        let rust = Rust::new(&case);
        case.features().into_iter().for_each(|f| self.note(f));
        let q = question(random, Kind::ToReal, &case, &rust, usize::MAX);
        let expected = rust.refused(&q).err().unwrap_or_else(|| rust.to_real());
        self.compare(&q, &expected);
        let outcome = if expected.number == 0 { "real".into() } else { format!("refused {}", expected.number) };
        self.count("to_real", &outcome);
    }

    pub fn run(seed: u64, count: u64) -> Self {
        let (mut tally, mut random) = (Self::default(), Random::new(seed));
        for _ in 0..count {
            match random.below(20) {
                0..=10 => tally.evaluate(&mut random),
                11..=16 => tally.substitute(&mut random),
                _ => tally.to_real(&mut random),
            }
        }
        tally
    }

    pub fn is_clean(&self) -> bool {
        self.differ == 0 && (self.hits.is_empty() || all_hit(&self.hits))
    }

    pub fn print(&self) {
        if !self.hits.is_empty() {
            print_hits(&self.hits);
        }
        for ((what, outcome), n) in self.cases.iter().chain(&self.tries) {
            println!("{n:>10}  {what}: {outcome}");
        }
        for (what, n) in &self.notes {
            println!("{n:>10}  {what}");
        }
        let cases: u64 = self.cases.values().sum();
        let corner: u64 = self.cases.iter().filter(|((_, o), _)| o.starts_with("not")).map(|(_, n)| n).sum();
        println!("{:>10}  calls compared, {} of them with a zero of the other sign", self.compared, self.zeros);
        println!("{:>10}  rows marked, beside {} that were not", self.marked, self.unmarked);
        println!("{:>10}  lines of results that a line gave, beside {} that were made", self.traced, self.made);
        println!("{cases:>10}  cases, {} compared to the end, {corner} not", cases - corner);
        println!("{:>10}  differ", self.differ);
    }
}
