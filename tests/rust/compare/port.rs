// The proved port, called as C calls it. Around each lent slice stand words that have to stay as they are.
use crate::origins::{traced, with_fields};
use crate::question::{Answer, Kind, NEED, OUT_ROOM, Question};
use std::collections::BTreeSet;

pub mod tape;

#[rustfmt::skip]
unsafe extern "C" {
    fn findavoreb_evaluate(
        listing: *const u8, listing_length: usize, sheet: *const u8, sheet_length: usize,
        store: *mut [u64; 4], rows: usize, desk: *mut u64, table: *mut u64, answer: *mut u64,
    ) -> u64;
    fn findavoreb_substitute(
        listing: *const u8, listing_length: usize,
        store: *mut [u64; 4], rows: usize, desk: *mut u64, table: *mut u64,
        out: *mut u8, out_length: usize, answer: *mut u64,
    ) -> u64;
    fn findavoreb_to_real(
        listing: *const u8, listing_length: usize,
        store: *mut [u64; 4], rows: usize, desk: *mut u64, table: *mut u64, answer: *mut u64,
    ) -> u64;
    fn findavoreb_simplify(
        listing: *const u8, listing_length: usize, sheet: *const u8, sheet_length: usize, limit: u64,
        store: *mut [u64; 4], rows: usize, desk: *mut u64, table: *mut u64,
        out: *mut u8, out_length: usize, answer: *mut u64,
    ) -> u64;
    fn findavoreb_evaluate_marked(
        listing: *const u8, listing_length: usize, sheet: *const u8, sheet_length: usize,
        store: *mut [u64; 4], rows: usize, desk: *mut u64, table: *mut u64, answer: *mut u64, marks: *mut u8,
    ) -> u64;
    fn findavoreb_simplify_marked(
        listing: *const u8, listing_length: usize, sheet: *const u8, sheet_length: usize, limit: u64,
        store: *mut [u64; 4], rows: usize, desk: *mut u64, table: *mut u64,
        out: *mut u8, out_length: usize, answer: *mut u64, marks: *mut u8,
    ) -> u64;
    fn findavoreb_substitute_origins(
        listing: *const u8, listing_length: usize,
        store: *mut [u64; 4], rows: usize, desk: *mut u64, table: *mut u64,
        out: *mut u8, out_length: usize, answer: *mut u64,
    ) -> u64;
    fn findavoreb_simplify_origins(
        listing: *const u8, listing_length: usize, sheet: *const u8, sheet_length: usize, limit: u64,
        store: *mut [u64; 4], rows: usize, desk: *mut u64, table: *mut u64,
        out: *mut u8, out_length: usize, answer: *mut u64, marks: *mut u8,
    ) -> u64;
    fn findavoreb_compile(
        listing: *const u8, listing_length: usize,
        store: *mut [u64; 4], rows: usize, desk: *mut u64, table: *mut u64,
        out: *mut u8, out_length: usize, answer: *mut u64,
    ) -> u64;
}

const DESK: usize = 272;
const TABLE: usize = 4608;
const ANSWER: usize = 6;
const MARKS: usize = 256;
const EDGE: usize = 4; // words, or bytes, before and after a slice
const BLANK: u8 = 0xA5;

struct Words {
    all: Vec<u64>,
    junk: u64,
}

impl Words {
    fn new(length: usize, junk: u64) -> Self {
        Self { all: vec![junk; length + 2 * EDGE], junk }
    }

    fn lent(&mut self) -> &mut [u64] {
        let end = self.all.len() - EDGE;
        &mut self.all[EDGE..end]
    }

    fn edges_kept(&self) -> bool {
        let end = self.all.len() - EDGE;
        self.all[..EDGE].iter().chain(&self.all[end..]).all(|w| *w == self.junk)
    }

    fn is_zero(&mut self) -> bool {
        self.edges_kept() && self.lent().iter().all(|w| *w == 0)
    }
}

// The output: what is lent of it has a pattern at entry.
struct Paper(Vec<u8>);

impl Paper {
    fn new(length: usize) -> Self {
        Self(vec![BLANK; length + 2 * EDGE])
    }

    fn lent(&mut self) -> &mut [u8] {
        let end = self.0.len() - EDGE;
        &mut self.0[EDGE..end]
    }

    // The first n bytes, if all others are as they were.
    fn written(&self, n: usize) -> Option<Vec<u8>> {
        let end = EDGE.checked_add(n).filter(|end| *end <= self.0.len() - EDGE)?;
        let others = self.0[..EDGE].iter().chain(&self.0[end..]);
        others.into_iter().all(|b| *b == BLANK).then(|| self.0[EDGE..end].to_vec())
    }
}

// Marks, which are always written whole.
struct Marks(Paper);

impl Marks {
    fn new() -> Self {
        Self(Paper::new(MARKS))
    }

    fn lent(&mut self) -> *mut u8 {
        self.0.lent().as_mut_ptr()
    }

    // The rows that are marked.
    fn rows(&self) -> Result<BTreeSet<usize>, &'static str> {
        let marks = self.0.written(MARKS).ok_or("bytes beside the marks were changed")?;
        if marks.iter().any(|mark| *mark > 1) {
            return Err("a mark is neither 0 nor 1");
        }
        Ok((0..MARKS).filter(|row| marks[*row] == 1).collect())
    }
}

// The work memory. The rows stand one after another, four words each.
struct Work {
    store: Words,
    desk: Words,
    table: Words,
}

impl Work {
    fn new(rows: usize, junk: u64) -> Self {
        let [store, desk, table] = [4 * rows, DESK, TABLE].map(|length| Words::new(length, junk));
        Self { store, desk, table }
    }
}

// How a question is asked: as it is, with marks, or with origins and, where there can be any, marks.
enum Way<'a> {
    Plain,
    Marked(&'a mut Marks),
    Traced(&'a mut Marks),
}

// Rust's empty slices have no address of their own; all the same it is not null.
#[rustfmt::skip]
fn call(q: &Question, work: &mut Work, paper: &mut Paper, answer: &mut Words, way: Way) -> u64 {
    let (text, length) = (q.listing.as_ptr(), q.listing.len());
    let (store, rows) = (work.store.lent().as_mut_ptr().cast(), q.rows);
    let (desk, table) = (work.desk.lent().as_mut_ptr(), work.table.lent().as_mut_ptr());
    let (sheet, sheet_length) = (q.sheet.as_ptr(), q.sheet.len());
    let (out, out_length, answer) = (paper.lent().as_mut_ptr(), q.out, answer.lent().as_mut_ptr());
    unsafe {
        match (q.kind, way) {
            (Kind::Evaluate, Way::Plain) => {
                findavoreb_evaluate(text, length, sheet, sheet_length, store, rows, desk, table, answer)
            }
            (Kind::Evaluate, Way::Marked(marks) | Way::Traced(marks)) => findavoreb_evaluate_marked(
                text, length, sheet, sheet_length, store, rows, desk, table, answer, marks.lent(),
            ),
            (Kind::Simplify(limit), Way::Plain) => findavoreb_simplify(
                text, length, sheet, sheet_length, limit, store, rows, desk, table, out, out_length, answer,
            ),
            (Kind::Simplify(limit), Way::Marked(marks)) => findavoreb_simplify_marked(
                text, length, sheet, sheet_length, limit, store, rows, desk, table, out, out_length, answer, marks.lent(),
            ),
            (Kind::Simplify(limit), Way::Traced(marks)) => findavoreb_simplify_origins(
                text, length, sheet, sheet_length, limit, store, rows, desk, table, out, out_length, answer, marks.lent(),
            ),
            (Kind::Substitute, Way::Traced(_)) => {
                findavoreb_substitute_origins(text, length, store, rows, desk, table, out, out_length, answer)
            }
            (Kind::Substitute, _) => {
                findavoreb_substitute(text, length, store, rows, desk, table, out, out_length, answer)
            }
            (Kind::ToReal, _) => findavoreb_to_real(text, length, store, rows, desk, table, answer),
            (Kind::Compile, _) => {
                findavoreb_compile(text, length, store, rows, desk, table, out, out_length, answer)
            }
        }
    }
}

// The answer without its bytes, in its place what the second word holds; or what was wrong about the memory.
fn answered(number: u64, answer: &mut Words) -> Result<Answer, &'static str> {
    if !answer.edges_kept() {
        return Err("words beside the answer were changed");
    }
    let [first, place, words @ ..] = answer.lent() else { return Err("no answer") };
    if *first != number {
        return Err("the answer's first word is not what was returned");
    }
    let (place, words) = (*place, [words[0], words[1], words[2], words[3]]);
    if number != 0 && number != NEED && words != [0; 4] {
        return Err("words of the answer that are not used are not zero");
    }
    Ok(Answer { number, place, words, ..Answer::default() })
}

// The answer, or what was wrong about the memory after the call. What can be asked with marks is asked with them too, and what
// writes a listing with origins. Some are asked again with origins in the listing that is given.
pub fn ask(q: &Question) -> Result<Answer, &'static str> {
    let got = ask_with_marks(q)?;
    if let Some(listing) = with_fields(q) {
        let q = Question { listing, ..q.clone() };
        if ask_with_marks(&q)? != got {
            return Err("with origins in the given listing the answer or the output is another one");
        }
        look_at_origins(&q, &got)?;
    } else {
        look_at_origins(q, &got)?;
    }
    Ok(got)
}

fn ask_with_marks(q: &Question) -> Result<Answer, &'static str> {
    let got = ask_once(q, Way::Plain)?;
    if !q.marks() {
        return Ok(got);
    }
    let mut marks = Marks::new();
    if ask_once(q, Way::Marked(&mut marks))? != got {
        return Err("with marks the answer or the output is another one");
    }
    Ok(Answer { marks: marks.rows()?, ..got })
}

fn ask_for_origins(q: &Question) -> Result<Answer, &'static str> {
    let mut marks = Marks::new();
    let got = ask_once(q, Way::Traced(&mut marks))?;
    if q.marks() { Ok(Answer { marks: marks.rows()?, ..got }) } else { Ok(got) }
}

// With origins the answer is this one, but for the bytes: those of the result with the first line of each tree. With a byte less
// than they need it is 13, and there are no marks. What is refused without them is refused likewise.
fn look_at_origins(q: &Question, got: &Answer) -> Result<(), &'static str> {
    if !q.traces() {
        return Ok(());
    }
    let bytes = if got.number == 0 { traced(&q.listing, &got.bytes) } else { vec![] };
    let out = if got.number == 0 { bytes.len() } else { q.out };
    let wanted = Answer { bytes, ..got.clone() };
    if ask_for_origins(&Question { out, ..q.clone() })? != wanted {
        return Err("with origins the answer, the marks or the output is another one");
    }
    if got.number == 0 && ask_for_origins(&Question { out: out - 1, ..q.clone() })? != Answer::refusal(OUT_ROOM) {
        return Err("with origins and an output too short the answer is another one");
    }
    Ok(())
}

fn ask_once(q: &Question, way: Way) -> Result<Answer, &'static str> {
    let (mut work, mut answer) = (Work::new(q.rows, q.junk), Words::new(ANSWER, !q.junk));
    let mut paper = Paper::new(if q.writes() { q.out } else { 0 });
    let number = call(q, &mut work, &mut paper, &mut answer, way);
    if !work.store.is_zero() {
        return Err("the rows are not zero");
    }
    if !work.desk.is_zero() {
        return Err("the desk is not zero");
    }
    if !work.table.is_zero() {
        return Err("the table is not zero");
    }
    let mut got = answered(number, &mut answer)?;
    let written = if number == 0 { got.place as usize } else { 0 };
    got.bytes = paper.written(written).ok_or("bytes of the output beside the result were changed")?;
    if number == 0 {
        got.place = 0;
    }
    Ok(got)
}
