// What simplifying a case has to answer, by the model: its result or its refusal, and the rows that are marked.
use crate::cases::Case;
use crate::model::{Model, Stop};
use crate::question::{Answer, OUT_ROOM, Question};
use crate::rows::Rows;
use crate::rust::Rust;
use crate::store::{LINES, LONG_LIST, Store};
use crate::texts::listing;
use crate::verdict::corner;
use oracle::nodes::Node;
use oracle::trace::Asked;

pub struct Expected<'a> {
    pub model: Model<'a>,
    pub answer: Answer,
}

fn written(model: &Model, result: usize, out: usize) -> Answer {
    let lines = model.lines(result);
    let bytes = listing(&lines, &[]).into_bytes();
    if lines.len() > LINES {
        return Answer::refusal(LONG_LIST);
    }
    if out < bytes.len() {
        return Answer::refusal(OUT_ROOM);
    }
    Answer { words: [model.calls, 0, 0, 0], bytes, ..Answer::default() }
}

// With this memory and the rows that a sheet has, or all.
pub fn expected<'a>(
    nodes: &[Node],
    limit: u64,
    capacity: usize,
    out: usize,
    rows: Option<&'a Rows>,
) -> Expected<'a> {
    let mut model = Model::new(Store::new(capacity), rows);
    let answer = match model.run(nodes, limit) {
        Ok(result) => written(&model, result, out),
        Err(Stop::Refused(number)) => Answer::refusal(number),
        Err(Stop::Need(asked)) => Answer::need(asked),
    };
    let answer = answer.marked(model.used.clone());
    Expected { model, answer }
}

pub fn expected_of<'a>(q: &Question, nodes: &[Node], rows: Option<&'a Rows>) -> Expected<'a> {
    expected(nodes, q.limit(), q.capacity(), q.out, rows)
}

// What the Rust asks for, in its order, where the model has all rows and comes to a result; in a corner, and where it does not, what
// the model asks for.
pub fn asked_by_the_rust(full: &Expected, nodes: &[Node], limit: u64) -> Vec<Asked> {
    if full.answer.number != 0 || corner(&full.model).is_some() {
        return full.model.asks.list.clone();
    }
    Rust::new(&Case::of(nodes)).simplified(limit).1.asks.list
}
