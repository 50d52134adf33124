// The Rust's side: what the answer to a case has to be, by the Rust's own functions and, for the refusals that the port
// adds, by the rules.
use crate::cases::Case;
use crate::question::{Answer, INCOMPLETE, Kind, NOT_A_NUMBER, NOT_REAL, OUT_ROOM, Question};
use crate::rows::Rows;
use crate::store::{MOST, Store};
use crate::texts::{identical, in_order, listing, read_back};
use internment::ArcIntern;
use num_complex::Complex64;
use oracle::expression::{EvaluationError, Expression, simplified};
use oracle::nodes::{interned_trees, region_name, trees, variable_name};
use oracle::trace::{Asked, Trace, bits};
use oracle::watch::Watched;
use std::collections::HashMap;

const LIMIT: u64 = 10; // in by_hand.rs as it is

pub struct Rust<'a> {
    case: &'a Case,
    trees: Vec<ArcIntern<Expression>>,
}

// What evaluating gives in the Rust, and the functions that it applies, in order.
pub struct Evaluated {
    pub value: Result<Complex64, EvaluationError>,
    pub interned: Result<Complex64, EvaluationError>, // where equal nodes are made one
    pub asked: Vec<Asked>,
}

fn refusal_of(error: EvaluationError) -> Answer {
    Answer::refusal(match error {
        EvaluationError::Incomplete => INCOMPLETE,
        EvaluationError::NumberNotReal => NOT_REAL,
        EvaluationError::NotANumber => NOT_A_NUMBER,
    })
}

fn value_answer(words: [u64; 4]) -> Answer {
    Answer { words, ..Answer::default() }
}

fn answer_of(value: &Result<Complex64, EvaluationError>) -> Answer {
    match value {
        Ok(z) => value_answer([bits(z.re), bits(z.im), 0, 0]),
        Err(error) => refusal_of(error.clone()),
    }
}

fn same_value(x: &Result<Complex64, EvaluationError>, y: &Result<Complex64, EvaluationError>) -> bool {
    match (x, y) {
        (Ok(x), Ok(y)) => bits(x.re) == bits(y.re) && bits(x.im) == bits(y.im),
        (x, y) => x == y,
    }
}

impl<'a> Rust<'a> {
    pub fn new(case: &'a Case) -> Self {
        Self { case, trees: trees(&case.nodes) }
    }

    fn root(&self) -> &Expression {
        &self.trees[self.trees.len() - 1]
    }

    // How many nodes the operation stores where the store is as large as it can be; what is refused all the same.
    pub fn needed(&self, kind: Kind) -> (usize, Result<(), u64>) {
        let mut store = Store::new(MOST);
        let done = self.stored(kind, &mut store);
        (store.len(), done)
    }

    fn stored(&self, kind: Kind, store: &mut Store) -> Result<(), u64> {
        let lines = store.read(&self.case.nodes)?;
        if kind == Kind::Substitute { store.substitute(&lines, &self.case.swaps) } else { Ok(()) }
    }

    // The refusal that comes before the Rust's own functions have a say.
    pub fn refused(&self, q: &Question) -> Result<(), Answer> {
        self.stored(q.kind, &mut Store::new(q.capacity())).map_err(Answer::refusal)
    }

    pub fn evaluate(&self) -> Evaluated {
        let variables = self.case.variables.iter().map(|(v, z)| (variable_name(*v), *z)).collect();
        let memory = self.case.cells.iter().map(|(r, xs)| (region_name(*r), xs.clone())).collect();
        let mut trace = Trace::new(&variables, &memory);
        let traced = trace.value(self.root());
        let value = self.root().evaluate(&variables, &memory);
        // In corner 3 the sign of a NaN decides, and on x86-64 that turns on how the compiler orders the operands of a sum.
        let cornered = trace.asks.list.iter().any(|asked| asked.is_corner());
        assert!(cornered || same_value(&traced, &value), "the trace does not go as the Rust's evaluate goes");
        let interned = interned_trees(&self.case.nodes);
        let interned = interned[interned.len() - 1].evaluate(&variables, &memory);
        Evaluated { value, interned, asked: trace.asks.list }
    }

    pub fn to_real(&self) -> Answer {
        match self.root().to_real() {
            Ok(x) => value_answer([bits(x), 0, 0, 0]),
            Err(error) => refusal_of(error),
        }
    }

    // What simplifying to a limit gives in a copy of the Rust, and what was seen of it. To the Rust's own limit the file as
    // it is has to give the same.
    pub fn simplified(&self, limit: u64) -> (Expression, Watched) {
        let (result, watched) = simplified(limit, self.root());
        if limit == LIMIT {
            let own = self.root().clone().into_simplified();
            assert!(identical(&own, &result), "the copy does not simplify as the Rust does");
        }
        (result, watched)
    }

    // The same where the Rust makes equal nodes one.
    pub fn simplified_shared(&self, limit: u64) -> (Expression, Watched) {
        internment::share(true);
        let trees = interned_trees(&self.case.nodes);
        let shared = simplified(limit, &trees[trees.len() - 1]);
        internment::share(false);
        shared
    }

    pub fn substituted(&self) -> Expression {
        let by: HashMap<String, Expression> =
            self.case.swaps.iter().map(|(v, line)| (variable_name(*v), self.trees[*line].as_ref().clone())).collect();
        self.root().substitute_variables(&by)
    }
}

impl Evaluated {
    // The first application for which the sheet has no row.
    pub fn lacking(&self, rows: &Rows) -> Option<Asked> {
        self.asked.iter().copied().find(|asked| !rows.has(*asked))
    }

    // The answer where the sheet has these rows: what is lacking is asked for. Marked are the rows for the applications before that.
    pub fn answer(&self, rows: &Rows) -> Answer {
        let answer = self.lacking(rows).map_or_else(|| answer_of(&self.value), Answer::need);
        answer.marked(rows.found(&self.asked))
    }

    // What the Rust answers where equal nodes are made one.
    pub fn interned_answer(&self) -> Answer {
        answer_of(&self.interned)
    }
}

// The written result of a substitution, or the refusal where the output has no room for it.
pub fn written(result: &Expression, out: usize) -> Answer {
    let bytes = listing(&in_order(result), &[]).into_bytes();
    if out < bytes.len() { Answer::refusal(OUT_ROOM) } else { Answer { bytes, ..Answer::default() } }
}

// Whether what the port wrote reads back to the Rust's result.
pub fn reads_back(bytes: &[u8], result: &Expression) -> bool {
    let nodes = std::str::from_utf8(bytes).ok().and_then(read_back);
    nodes.is_some_and(|nodes| trees(&nodes).last().is_some_and(|root| identical(root, result)))
}
