// Questions as they are drawn around a case: how much memory is lent, and which rows a sheet has.
use crate::cases::Case;
use crate::question::{Kind, Question};
use crate::random::{Numbers, Random};
use crate::rust::Rust;
use crate::store::MOST;
use crate::texts::{bindings, listing, row};
use num_complex::Complex64;
use oracle::nodes::Node;
use oracle::trace::{Asked, OPERATIONS, Operation};
use std::collections::HashSet;

pub const ROWS: usize = 256; // that a sheet may have
const ROUNDS: usize = 40; // after which rows that are asked for are given beforehand

// How many rows are lent: too few, just enough or plenty, also more than a store may have. Four numbers are drawn and the least is
// taken, so that the cases after it stay the stored ones.
fn rows(random: &mut Random, needed: usize, most: usize) -> usize {
    let mut all = [0; 4].map(|_| (needed + random.below(20)).min(most));
    match random.below(12) {
        0 => all[random.below(4)] = random.below(needed.max(1)),
        1 => all[random.below(4)] = needed.saturating_sub(1),
        2..=4 => all[random.below(4)] = needed,
        5 => return MOST,
        6 => return (MOST + 300).min(most),
        _ => {}
    }
    all.into_iter().min().unwrap_or(0)
}

fn junk(random: &mut Random) -> u64 {
    let any = random.next();
    random.pick(&[0, 1, u64::MAX, 0x0001_0001_0001_0001, 0xDEAD_BEEF_0001_0001, any])
}

pub fn out_length(random: &mut Random, exact: usize) -> usize {
    match random.below(10) {
        0 => exact - 1,
        1 => random.below(exact),
        2 => 0,
        3 | 4 => exact,
        _ => exact + random.below(100),
    }
}

pub fn question(random: &mut Random, kind: Kind, case: &Case, rust: &Rust, most: usize) -> Question {
    let (needed, _) = rust.needed(kind);
    Question {
        kind,
        listing: listing(&case.nodes, &case.swaps),
        sheet: bindings(case),
        rows: rows(random, needed, most),
        out: 0,
        junk: junk(random),
        tape: None,
    }
}

// The same for simplifying, which needs this many nodes. What a sheet binds has no part in it.
pub fn simplify_question(random: &mut Random, nodes: &[Node], limit: u64, needed: usize, most: usize) -> Question {
    let bound = ["", "", "", "v\t0\t3FF0000000000000\t0000000000000000\n", "m\t0\t0\t4000000000000000\n"];
    Question {
        kind: Kind::Simplify(limit),
        listing: listing(nodes, &[]),
        sheet: random.pick(&bound).into(),
        rows: rows(random, needed, most),
        out: 0,
        junk: junk(random),
        tape: None,
    }
}

// A row that nothing asks for.
fn stray(random: &mut Random, asked: &[Asked]) -> Option<Asked> {
    let (x, y) = (random.complex(Numbers::Wild), random.complex(Numbers::Plane));
    let operation = random.pick(&OPERATIONS);
    let zero = Complex64::new(0.0, 0.0);
    let power = operation == Operation::Power;
    let stray = Asked::new(operation, x, if power { y } else { zero });
    (!asked.contains(&stray)).then_some(stray)
}

// Rows that a sheet has from the beginning: some that will be asked for, and strays.
pub fn rows_before(random: &mut Random, asked: &[Asked]) -> Vec<Asked> {
    let mut all = asked.to_vec();
    random.shuffle(&mut all);
    let some = if random.once_in(4) { random.below(all.len() + 1) } else { 0 };
    all.truncate(some.max(asked.len().saturating_sub(ROUNDS)).min(ROWS - 6));
    if random.once_in(3) {
        all.extend(stray(random, asked));
    }
    random.shuffle(&mut all);
    all
}

pub fn rows_text(random: &mut Random, rows: &[Asked], asked: &HashSet<Asked>) -> String {
    let text = |row_: &Asked, random: &mut Random| {
        row(*row_, if asked.contains(row_) { row_.value() } else { random.complex(Numbers::Wild) })
    };
    rows.iter().map(|r| text(r, random)).collect()
}

// The same rows, whose text this is, and at times others before, between and after them, as long as a sheet has room: some that
// nothing asks for, and some that match one above them and do not count.
pub fn among_others(random: &mut Random, rows: &[Asked], text: &str, asked: &[Asked]) -> String {
    let mut all: Vec<(Asked, String)> = rows.iter().copied().zip(text.split_inclusive('\n').map(String::from)).collect();
    let others = random.pick(&[0, 0, 1, 3, 8]);
    for _ in 0..others.min(ROWS - rows.len()) {
        let before = random.below(all.len() + 1);
        let other = if before > 0 && random.once_in(2) { Some(all[before - 1].0) } else { stray(random, asked) };
        if let Some(other) = other {
            let at = random.from(before, all.len());
            all.insert(at, (other, row(other, random.complex(Numbers::Plane))));
        }
    }
    all.into_iter().map(|(_, line)| line).collect()
}

// The same rows in another order, or with others after them that match and do not count.
pub fn rearranged(random: &mut Random, rows: &[Asked], asked: &HashSet<Asked>) -> String {
    let mut rows = rows.to_vec();
    if random.once_in(2) {
        random.shuffle(&mut rows);
    }
    let mut text = rows_text(random, &rows, asked);
    for again in rows.iter().take(ROWS - rows.len()) {
        text += &row(*again, random.complex(Numbers::Plane));
    }
    text
}
