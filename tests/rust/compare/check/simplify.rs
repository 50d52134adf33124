// Simplifying: small trees taken systematically and random ones, the port beside the rules' model and the Rust. The rows that
// have to be marked are those that the model finds, and those that are found for what the Rust asks, in its order.
use super::Tally;
use crate::cases::{Case, arms};
use crate::drawing::{ROWS, among_others, out_length, rearranged, rows_before, rows_text, simplify_question};
use crate::expected::{asked_by_the_rust, expected, expected_of};
use crate::forest;
use crate::model::Model;
use crate::question::{Answer, BAD_LIMIT, BAD_LIST, BAD_SHEET, Kind, NEED, Question};
use crate::random::Random;
use crate::rows::Rows;
use crate::rust::Rust;
use crate::store::{BIG, DEEP, LINES, LONG_LIST, MOST, Store};
use crate::texts::row;
use crate::verdict::{Verdict, verdict};
use oracle::nodes::Node;
use oracle::trace::Asked;
use std::collections::HashSet;

const WHAT: &str = "simplify";
const MOST_LIMIT: u64 = 10;
const LESS: usize = 6; // nodes
const OVER: [u64; 6] = [11, 12, 255, 1 << 32, 1 << 63, u64::MAX];

impl Tally {
    // One case at one limit: with the rows as NEED asks for them, then against the Rust.
    fn simplify_to(&mut self, random: &mut Random, nodes: &[Node], limit: u64) {
        let full = expected(nodes, limit, MOST, usize::MAX, None);
        let mut q = simplify_question(random, nodes, limit, full.model.store.len(), usize::MAX);
        let exact = full.answer.bytes.len();
        q.out = if exact > 0 && random.once_in(4) { out_length(random, exact) } else { exact + random.below(100) };
        let outcome = self.simplify_rounds(random, &mut q, nodes, &asked_by_the_rust(&full, nodes, limit));
        self.count(WHAT, &outcome);
        if random.once_in(50) {
            self.spoiled(random, q, nodes);
        }
    }

    fn simplify_rounds(&mut self, random: &mut Random, q: &mut Question, nodes: &[Node], asks: &[Asked]) -> String {
        let asked: HashSet<Asked> = asks.iter().copied().collect();
        let mut rows = rows_before(random, asks);
        let bound = std::mem::take(&mut q.sheet);
        let mut text = rows_text(random, &rows, &asked);
        loop {
            q.sheet = format!("{bound}{}", among_others(random, &rows, &text, asks));
            let there = Rows::read(&q.sheet);
            let expected = expected_of(q, nodes, Some(&there));
            let bytes = self.compare(q, &expected.answer);
            self.compare_marks(q, &expected.answer, &there, asks);
            if [BIG, DEEP].contains(&expected.answer.number) || expected.answer.number == NEED && random.once_in(8) {
                self.with_less_memory(q, nodes, &expected.model, &there);
            }
            if expected.answer.number != NEED {
                let outcome = self.simplified(q, nodes, &expected.model, &expected.answer, &bytes);
                if !rows.is_empty() && random.once_in(3) {
                    q.sheet = format!("{bound}{}", rearranged(random, &rows, &asked));
                    self.compare(q, &expected_of(q, nodes, Some(&Rows::read(&q.sheet))).answer);
                }
                return outcome;
            }
            let next = *expected.model.asks.list.last().expect("what is lacking");
            self.note(super::NEEDS[next.operation as usize - 1]);
            if rows.len() == ROWS {
                return "not compared: over 256 rows".into();
            }
            text += &row(next, next.value());
            rows.push(next);
        }
    }

    // The rows that the model finds are those for what the Rust asks.
    fn compare_marks(&mut self, q: &Question, expected: &Answer, rows: &Rows, asks: &[Asked]) {
        if expected.marks != expected.clone().marked(rows.found(asks)).marks {
            self.differs(q, &format!("the Rust asks for {asks:x?}\nand the model finds {:?}", expected.marks));
        }
    }

    // What was refused otherwise than by 8 is refused by 8 where one of the last nodes before had no room: so the order shows
    // in which nodes are stored.
    fn with_less_memory(&mut self, q: &Question, nodes: &[Node], model: &Model, rows: &Rows) {
        for less in 1..=LESS.min(model.store.len()) {
            let short = Question { rows: model.store.len() - less, ..q.clone() };
            self.compare(&short, &expected_of(&short, nodes, Some(rows)).answer);
        }
    }

    // What was written, against the Rust.
    fn simplified(&mut self, q: &Question, nodes: &[Node], model: &Model, answer: &Answer, bytes: &[u8]) -> String {
        self.add_hits(&model.hits);
        if answer.number != 0 {
            let when = match (model.calls, model.used.is_empty()) {
                (0, _) => " while reading",
                (_, true) => "",
                _ => " after rows were used",
            };
            return format!("refused {}{when}", answer.number);
        }
        match verdict(model, bytes, &Rust::new(&Case::of(nodes)), q.limit()) {
            Verdict::Same => "written".into(),
            Verdict::SameIfApart => "written, a zero of the other sign if the Rust makes equal nodes one".into(),
            Verdict::OtherZero => "written, a zero of the other sign in the Rust".into(),
            Verdict::NotCompared(corner) => format!("written, not compared with the Rust: {corner}"),
            Verdict::Differs(why) => {
                self.differs(q, &why);
                "written, another result in the Rust".into()
            }
        }
    }

    // The same with a limit above 10, a line too many in the listing, or one in the sheet.
    fn spoiled(&mut self, random: &mut Random, mut q: Question, nodes: &[Node]) {
        let [over, bad_list, bad_sheet] = [0, 1, 2].map(|i| random.once_in(2) || i == 1 && random.once_in(2));
        if !(over || bad_list || bad_sheet) {
            return;
        }
        let lines = q.sheet.lines().count() as u64;
        if over {
            q.kind = Kind::Simplify(random.pick(&OVER));
        }
        if bad_list {
            q.listing += random.pick(&["x\n", "v\t65536\n", "v\t1", "s\t0\t0\n"]);
        }
        if bad_sheet {
            q.sheet += random.pick(&["x\n", "v\t0\n", "m"]);
        }
        let read = Store::new(q.capacity()).read(nodes);
        let expected = match (over, read) {
            (true, _) => Answer::at(BAD_LIMIT, 0),
            (_, Err(number)) => Answer::refusal(number),
            _ if bad_list => refused_line(&q, nodes.len()),
            _ => Answer::at(BAD_SHEET, lines),
        };
        self.compare(&q, &expected);
        self.count(WHAT, &format!("with a text or a limit spoiled, refused {}", expected.number));
    }

    fn systematic(&mut self, random: &mut Random) {
        forest::each(|_, nodes| {
            self.simplify_to(random, nodes, MOST_LIMIT);
            let limit = random.below(MOST_LIMIT as usize) as u64;
            self.simplify_to(random, nodes, limit);
        });
    }

    pub fn simplifying(seed: u64, count: u64) -> Self {
        let (mut tally, mut random) = (Self::default(), Random::new(seed));
        tally.systematic(&mut random);
        for _ in 0..count {
            let case = if random.once_in(20) { to_refuse(&mut random) } else { arms::to_simplify(&mut random) };
            case.features().into_iter().for_each(|f| tally.note(f));
            let limit = if random.once_in(2) { MOST_LIMIT } else { random.below(MOST_LIMIT as usize) as u64 };
            tally.simplify_to(&mut random, &case.nodes, limit);
        }
        tally
    }
}

fn to_refuse(random: &mut Random) -> Case {
    let case = arms::to_refuse(random);
    if random.once_in(2) { arms::with_functions(random, &case) } else { case }
}

// The line that was put behind a listing's last one.
pub(super) fn refused_line(q: &Question, line: usize) -> Answer {
    let is_node = !q.listing.lines().nth(line).is_some_and(|l| l.starts_with('s'));
    Answer::at(if line == LINES && is_node { LONG_LIST } else { BAD_LIST }, line as u64)
}
