// What is asked of the port and what it answers, in the form that both sides of the comparison use.
use crate::store::MOST;
use oracle::trace::Asked;
use std::collections::BTreeSet;

#[derive(Clone, Copy, Debug, PartialEq, Eq)]
pub enum Kind {
    Evaluate,
    Substitute,
    ToReal,
    Simplify(u64), // to this limit
    Compile,
}

// The two texts; how many rows are lent and how long the output is; what all memory holds at entry; for evaluating, a tape of the
// same that is to be played besides.
#[derive(Clone, Debug)]
pub struct Question {
    pub kind: Kind,
    pub listing: String,
    pub sheet: String,
    pub rows: usize,
    pub out: usize,
    pub junk: u64,
    pub tape: Option<Vec<u8>>,
}

impl Question {
    pub fn limit(&self) -> u64 {
        if let Kind::Simplify(limit) = self.kind { limit } else { 0 }
    }

    pub fn writes(&self) -> bool {
        matches!(self.kind, Kind::Substitute | Kind::Simplify(_) | Kind::Compile)
    }

    pub fn marks(&self) -> bool {
        matches!(self.kind, Kind::Evaluate | Kind::Simplify(_))
    }

    // Whether a listing is written.
    pub fn traces(&self) -> bool {
        matches!(self.kind, Kind::Substitute | Kind::Simplify(_))
    }

    pub fn capacity(&self) -> usize {
        self.rows.min(MOST)
    }
}

// A refusal's number or 0; the operation that NEED names, the line, or a tape's step, and after a check the number of its
// steps; a value's bits, NEED's operands, or the number of simplify calls; the bytes; the t rows that are marked.
#[derive(Clone, Debug, Default, PartialEq, Eq)]
pub struct Answer {
    pub number: u64,
    pub place: u64,
    pub words: [u64; 4],
    pub bytes: Vec<u8>,
    pub marks: BTreeSet<usize>,
}

pub const BAD_LIST: u64 = 1;
pub const BAD_SHEET: u64 = 3;
pub const BAD_LIMIT: u64 = 5;
pub const NEED: u64 = 9;
pub const INCOMPLETE: u64 = 10;
pub const NOT_REAL: u64 = 11;
pub const NOT_A_NUMBER: u64 = 12;
pub const OUT_ROOM: u64 = 13;
pub const LONG_TAPE: u64 = 14;
pub const BAD_TAPE: u64 = 15;

impl Answer {
    pub fn refusal(number: u64) -> Self {
        Self { number, ..Self::default() }
    }

    pub fn at(number: u64, place: u64) -> Self {
        Self { number, place, ..Self::default() }
    }

    pub fn need(asked: Asked) -> Self {
        Self { number: NEED, place: asked.operation as u64, words: asked.operands, ..Self::default() }
    }

    // The same with marks, where it is one that has any: a success, NEED or INCOMPLETE.
    pub fn marked(self, marks: BTreeSet<usize>) -> Self {
        if [0, NEED, INCOMPLETE].contains(&self.number) { Self { marks, ..self } } else { self }
    }

    // The same answer with zeros of either sign as one, where it is a value.
    pub fn with_one_zero(mut self) -> Self {
        if self.number == 0 {
            self.words = self.words.map(|w| if w == 1 << 63 { 0 } else { w });
        }
        self
    }
}
