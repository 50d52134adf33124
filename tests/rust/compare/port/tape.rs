// The functions of the port that take tapes, called as C calls them. A tape stands at any address.
use super::{ANSWER, Marks, TABLE, Words, answered};
use crate::question::Answer;

#[rustfmt::skip]
unsafe extern "C" {
    fn findavoreb_play(
        tape: *const u8, tape_length: usize, sheet: *const u8, sheet_length: usize, table: *mut u64, answer: *mut u64,
    ) -> u64;
    fn findavoreb_play_marked(
        tape: *const u8, tape_length: usize, sheet: *const u8, sheet_length: usize, table: *mut u64, answer: *mut u64,
        marks: *mut u8,
    ) -> u64;
    fn findavoreb_check(tape: *const u8, tape_length: usize, answer: *mut u64) -> u64;
    fn findavoreb_pick(
        first: *const u8, first_length: usize, second: *const u8, second_length: usize, picked: *mut u64,
    ) -> u64;
}

const PICKED: usize = 2;

// The tape's bytes again, some bytes from where a word might begin.
fn moved(tape: &[u8], junk: u64) -> (Vec<u8>, usize) {
    let before = (junk % 8) as usize;
    (vec![0xFF; before].into_iter().chain(tape.iter().copied()).collect(), before)
}

// Without marks and with them.
pub fn play(tape: &[u8], sheet: &str, junk: u64) -> Result<Answer, &'static str> {
    let (got, mut marks) = (play_once(tape, sheet, junk, None)?, Marks::new());
    if play_once(tape, sheet, junk, Some(&mut marks))? != got {
        return Err("with marks the answer is another one");
    }
    Ok(Answer { marks: marks.rows()?, ..got })
}

fn play_once(tape: &[u8], sheet: &str, junk: u64, marks: Option<&mut Marks>) -> Result<Answer, &'static str> {
    let (mut table, mut answer) = (Words::new(TABLE, junk), Words::new(ANSWER, !junk));
    let (tape, from) = moved(tape, junk);
    let (tape, words, lent) = (&tape[from..], answer.lent().as_mut_ptr(), table.lent().as_mut_ptr());
    let (at, length, rows, rows_length) = (tape.as_ptr(), tape.len(), sheet.as_ptr(), sheet.len());
    let number = unsafe {
        match marks {
            None => findavoreb_play(at, length, rows, rows_length, lent, words),
            Some(marks) => findavoreb_play_marked(at, length, rows, rows_length, lent, words, marks.lent()),
        }
    };
    if !table.is_zero() {
        return Err("the table is not zero");
    }
    answered(number, &mut answer)
}

pub fn check(tape: &[u8], junk: u64) -> Result<Answer, &'static str> {
    let mut answer = Words::new(ANSWER, !junk);
    let (tape, from) = moved(tape, junk);
    let number = unsafe { findavoreb_check(tape[from..].as_ptr(), tape.len() - from, answer.lent().as_mut_ptr()) };
    answered(number, &mut answer)
}

// Which of the two, and how long it is.
pub fn pick(first: &[u8], second: &[u8], junk: u64) -> Result<(u64, u64), &'static str> {
    let mut picked = Words::new(PICKED, junk);
    let words = picked.lent().as_mut_ptr();
    let which = unsafe { findavoreb_pick(first.as_ptr(), first.len(), second.as_ptr(), second.len(), words) };
    if !picked.edges_kept() {
        return Err("words beside what was picked were changed");
    }
    if picked.lent()[0] != which {
        return Err("the first word is not what was returned");
    }
    Ok((which, picked.lent()[1]))
}
