// The tape: small trees taken systematically and random ones are compiled, and their tapes checked, played, damaged and
// picked, by the port beside the rules' tape and the Rust's evaluate.
use super::Tally;
use super::simplify::refused_line;
use crate::cases::{Case, SHEET_CELLS, SHEET_VARIABLES, tapes};
use crate::damage::damaged;
use crate::drawing::{ROWS, out_length, question};
use crate::forest;
use crate::port::tape as port;
use crate::question::{Answer, BAD_SHEET, Kind, LONG_TAPE, OUT_ROOM, Question};
use crate::random::Random;
use crate::rust::Rust;
use crate::store::ROOM;
use crate::tape::{STACK, STEP, STEPS, Sheet, check_answer, checked, compiled, picked, play_answer, size_and_depth};
use crate::texts::row;
use num_complex::Complex64;
use oracle::trace::{Asked, OPERATIONS};

const WHAT: &str = "compile, then play";
const LONG_SHEET: u64 = 4;
const DAMAGES: usize = 3; // of each tape

// What compiling has to answer, by the plain store and the plain tape.
fn compile_answer(rust: &Rust, q: &Question, tape: Option<&[u8]>) -> Answer {
    match (rust.refused(q), tape) {
        (Err(refusal), _) => refusal,
        (_, None) => Answer::refusal(LONG_TAPE),
        (_, Some(tape)) if q.out < tape.len() => Answer::refusal(OUT_ROOM),
        (_, Some(tape)) => Answer { bytes: tape.to_vec(), ..Answer::default() },
    }
}

fn outcome(answer: &Answer, done: &str) -> String {
    if answer.number == 0 { done.into() } else { format!("refused {}", answer.number) }
}

// How a bad line behind a sheet is refused: by 4 where the sheet has as many lines of its letter as it may have.
fn refused_behind(sheet: &str, bad: &str) -> Answer {
    let letter = &bad[..1];
    let count = sheet.lines().filter(|line| line.starts_with(letter)).count();
    let is_full = letter == "v" && count == SHEET_VARIABLES || letter == "m" && count == SHEET_CELLS;
    Answer::at(if is_full { LONG_SHEET } else { BAD_SHEET }, sheet.lines().count() as u64)
}

// A sheet with a line too many, or a bad line; and how that is refused.
fn spoiled_sheet(random: &mut Random, sheet: &str) -> (String, Answer) {
    if random.once_in(2) {
        let bad = random.pick(&["x\n", "v\t0\n", "m"]);
        return (format!("{sheet}{bad}"), refused_behind(sheet, bad));
    }
    let zero = Complex64::new(0.0, 0.0);
    let text = row(Asked::new(random.pick(&OPERATIONS), zero, zero), zero);
    (text.repeat(ROWS + 1), Answer::at(LONG_SHEET, ROWS as u64))
}

impl Tally {
    // What the port says of a tape, beside what is expected.
    fn compare_tape(&mut self, q: &Question, tape: &[u8], got: Result<Answer, &'static str>, expected: &Answer) {
        self.compared += 1;
        if got.as_ref() != Ok(expected) {
            self.differs(q, &format!("the tape {tape:02x?}\nexpected\n{expected:x?}\nthe port\n{got:x?}"));
        }
    }

    // Playing the tape that a question has gives what evaluating gave, bit for bit.
    pub(super) fn compare_played(&mut self, q: &Question, evaluated: &Answer) {
        if let Some(tape) = &q.tape {
            self.compare_tape(q, tape, port::play(tape, &q.sheet, q.junk), evaluated);
        }
    }

    // The tape of a case, if there is one. Where the memory or the output was too short, the port is asked again.
    fn compile(&mut self, random: &mut Random, case: &Case, rust: &Rust) -> Option<(Question, Vec<u8>)> {
        let tape = compiled(&case.nodes);
        let mut q = question(random, Kind::Compile, case, rust, usize::MAX);
        q.sheet.clear();
        let exact = tape.as_ref().map_or(STEP * STEPS, Vec::len);
        q.out = if random.once_in(4) { out_length(random, exact) } else { exact + random.below(100) };
        let mut expected = compile_answer(rust, &q, tape.as_deref());
        self.compare(&q, &expected);
        self.tried("compile", &outcome(&expected, "a tape"));
        if random.once_in(20) {
            self.with_bad_line(random, &q, case, rust);
        }
        if [ROOM, OUT_ROOM].contains(&expected.number) {
            (q.rows, q.out) = (rust.needed(Kind::Compile).0, exact);
            expected = compile_answer(rust, &q, tape.as_deref());
            self.compare(&q, &expected);
        }
        if expected.number != 0 {
            self.count(WHAT, &format!("refused {}", expected.number));
            return None;
        }
        Some((q, expected.bytes))
    }

    // A bad line behind the listing is refused before a tree too large and an output too short.
    fn with_bad_line(&mut self, random: &mut Random, q: &Question, case: &Case, rust: &Rust) {
        let mut q = q.clone();
        q.listing += random.pick(&["x\n", "v\t65536\n", "v\t1", "s\t0\t0\n"]);
        let expected = rust.refused(&q).err().unwrap_or_else(|| refused_line(&q, case.nodes.len()));
        self.compare(&q, &expected);
        self.tried("compile", &format!("with a line spoiled, refused {}", expected.number));
    }

    // A tape that was compiled is sound, and its stack holds no more than the tree is deep.
    fn check(&mut self, q: &Question, case: &Case, tape: &[u8]) {
        let (size, depth) = size_and_depth(&case.nodes);
        self.compare_tape(q, tape, port::check(tape, q.junk), &Answer::at(0, size as u64));
        let highest = checked(tape).map_or(0, |sound| sound.highest);
        if highest == 0 || highest > depth {
            self.differs(q, "the tape is unsound, or its stack holds more than the tree is deep");
        }
        let noted = [
            (size == STEPS, "tape: 512 steps"),
            (highest == STACK, "tape: a stack of 64"),
            (highest == depth, "tape: a stack as high as the tree is deep"),
        ];
        noted.into_iter().filter(|(is, _)| *is).for_each(|(_, what)| self.note(what));
    }

    // One case: compiled, checked, played as the Rust evaluates it, damaged, and picked.
    fn tape(&mut self, random: &mut Random, case: &Case, before: &mut Vec<u8>) {
        let rust = Rust::new(case);
        let Some((compiling, tape)) = self.compile(random, case, &rust) else { return };
        self.check(&compiling, case, &tape);
        let mut q = question(random, Kind::Evaluate, case, &rust, usize::MAX);
        (q.rows, q.tape) = (compiling.rows, Some(tape.clone()));
        let bound = std::mem::take(&mut q.sheet);
        let outcome = self.rounds(random, &mut q, &bound, &rust.evaluate());
        self.count(WHAT, &outcome);
        let others = self.damages(random, &q, &tape, before);
        self.picks(random, &q, &tape, before, &others);
        *before = tape;
    }

    fn damages(&mut self, random: &mut Random, q: &Question, tape: &[u8], before: &[u8]) -> Vec<Vec<u8>> {
        let sheet = Sheet::read(&q.sheet);
        let mut all = vec![];
        for _ in 0..DAMAGES {
            let (how, bytes) = damaged(random, tape, before);
            let expected = play_answer(&bytes, &sheet);
            self.compare_tape(q, &bytes, port::check(&bytes, q.junk), &check_answer(&bytes));
            self.compare_tape(q, &bytes, port::play(&bytes, &q.sheet, q.junk), &expected);
            self.tried("damaged", &format!("{how}: {}", outcome(&expected, "sound, a value")));
            if random.once_in(20) {
                self.with_bad_sheet(random, q, &bytes);
            }
            all.push(bytes);
        }
        all
    }

    // The tape is checked before the sheet is read.
    fn with_bad_sheet(&mut self, random: &mut Random, q: &Question, tape: &[u8]) {
        let (sheet, refused) = spoiled_sheet(random, &q.sheet);
        let expected = if checked(tape).is_ok() { refused } else { check_answer(tape) };
        self.compare_tape(q, tape, port::play(tape, &sheet, q.junk), &expected);
        self.tried("play", &format!("with the sheet spoiled, refused {}", expected.number));
    }

    fn picks(&mut self, random: &mut Random, q: &Question, tape: &[u8], before: &[u8], others: &[Vec<u8>]) {
        let other = random.pick(&[&others[0][..], &others[1], &others[2], before, tape, &[]]);
        for (first, second) in [(tape, other), (other, tape), (&others[0][..], &others[1][..])] {
            self.compared += 1;
            let (expected, got) = (picked(first, second), port::pick(first, second, q.junk));
            if got != Ok(expected) {
                let both = format!("{first:02x?}\nand {second:02x?}");
                self.differs(q, &format!("of {both}\npicked {expected:?}, by the port {got:?}"));
            }
            self.tried("pick", &picked_how(first, second, expected.0));
        }
    }

    pub fn taping(seed: u64, count: u64) -> Self {
        let (mut tally, mut random, mut before) = (Self::default(), Random::new(seed), vec![]);
        forest::each(|_, nodes| {
            let case = tapes::bound(&mut random, nodes);
            tally.tape(&mut random, &case, &mut before);
        });
        for _ in 0..count {
            let case = tapes::to_compile(&mut random);
            case.features().into_iter().for_each(|f| tally.note(f));
            tally.tape(&mut random, &case, &mut before);
        }
        tally
    }
}

fn picked_how(first: &[u8], second: &[u8], which: u64) -> String {
    let name = ["neither", "the first", "the second"][which as usize];
    let sound = [first, second].map(|tape| checked(tape).is_ok());
    match sound {
        [true, true] if first.len() == second.len() => format!("{name}, as long as the other"),
        [true, true] => format!("{name}, the shorter"),
        _ => format!("{name}, of {} sound", sound.into_iter().filter(|is| *is).count()),
    }
}
