// Times the functions of the static library, whole calls from bytes to an answer, against the same by std and the Rust's own module,
// which parses the bytes too (calls/plain.rs): listings of 5 to 500 nodes in stores of 64 to 4096 rows. bench/run builds it; an
// argument says how many rounds. calls/port.rs has how memory is lent, and nothing else does: with another one this times a library
// that lends it otherwise, on the same bytes. The last line is a sum of all answers and outputs, by which two such libraries are
// compared.
use common::{Random, now, quartiles};
use oracle::expression::Expression;
use port::{Answer, Work};
use std::{collections::BTreeSet, fmt::Write, hint::black_box};

mod common;
#[path = "calls/plain.rs"]
mod plain;
#[path = "calls/port.rs"]
mod port;

const SIZES: [usize; 5] = [5, 20, 60, 200, 500];
const ROOMS: [usize; 4] = [64, 512, 1024, 4096];
const LIMIT: u64 = 10;
const OUT: usize = 36864; // bytes, as many as a listing may have
const NODES: usize = 2000; // of the listings of a round
const VARIABLES: usize = 64;
const SWAPS: usize = 4; // at the most
const ROUNDS: usize = 101;
const NOT_A_NUMBER: u64 = 12;

// ---- what is called

impl Random {
    // The bits of a number from a half to 2.
    fn bits(&mut self) -> u64 {
        self.real().to_bits()
    }
}

// The lines of a tree, each node one of its own, and what its leaves name.
#[derive(Default)]
struct Lines {
    text: String,
    count: usize,
    leaves: Vec<usize>,
    variables: BTreeSet<usize>,
    cells: BTreeSet<(usize, usize)>,
}

impl Lines {
    fn push(&mut self, line: String) -> usize {
        self.text += &line;
        self.count += 1;
        self.count - 1
    }

    // Of ten leaves three numbers, four variables, three cells.
    fn leaf(&mut self, random: &mut Random) -> usize {
        let line = match random.below(10) {
            0..3 => format!("n\t{:016X}\t{:016X}\n", random.bits(), random.bits()),
            3..7 => {
                let v = random.below(VARIABLES);
                self.variables.insert(v);
                format!("v\t{v}\n")
            }
            _ => {
                let (region, index) = (random.below(4), random.below(VARIABLES / 4));
                self.cells.insert((region, index));
                format!("m\t{region}\t{index}\n")
            }
        };
        self.leaves.push(self.count);
        self.push(line)
    }

    // A tree with this many nodes, of parts of any size.
    fn grow(&mut self, random: &mut Random, size: usize) -> usize {
        if size == 1 {
            return self.leaf(random);
        }
        if size == 2 {
            let a = self.grow(random, 1);
            return self.push(format!("u\t-\t{a}\n"));
        }
        let left = 1 + random.below(size - 2);
        let (a, b) = (self.grow(random, left), self.grow(random, size - 1 - left));
        let operator = ["+", "-", "*", "/"][random.below(4)];
        self.push(format!("b\t{operator}\t{a}\t{b}\n"))
    }
}

// A listing; the same with s lines, which put leaves in the place of variables; a sheet with what it names; its tape and its tree.
struct Job {
    list: Vec<u8>,
    with_swaps: Vec<u8>,
    sheet: Vec<u8>,
    tape: Vec<u8>,
    tree: Expression,
}

impl Job {
    fn drawn(random: &mut Random, size: usize) -> Job {
        let mut lines = Lines::default();
        lines.grow(random, size);
        let (mut with_swaps, mut sheet) = (lines.text.clone(), String::new());
        for v in lines.variables.iter().take(SWAPS) {
            writeln!(with_swaps, "s\t{v}\t{}", lines.leaves[random.below(lines.leaves.len())]).unwrap();
        }
        for v in &lines.variables {
            writeln!(sheet, "v\t{v}\t{:016X}\t{:016X}", random.bits(), random.bits()).unwrap();
        }
        for (region, index) in &lines.cells {
            writeln!(sheet, "m\t{region}\t{index}\t{:016X}", random.bits()).unwrap();
        }
        let tree = plain::listing(lines.text.as_bytes()).expect("a listing").0;
        let [list, with_swaps, sheet] = [lines.text, with_swaps, sheet].map(String::into_bytes);
        Job { list, with_swaps, sheet, tape: Vec::new(), tree }
    }

    // One that all calls accept in the least of the stores that are tried with this size. Both sides agree on it.
    fn new(random: &mut Random, size: usize, least: &mut Work, out: &mut [u8]) -> Job {
        loop {
            let (mut job, mut answer) = (Job::drawn(random, size), [0; 6]);
            if [Call::Evaluate, Call::Simplify, Call::Substitute, Call::Compile].map(|c| c.make(least, &job, out, &mut answer)) == [0; 4] {
                job.tape = out[..answer[1] as usize].to_vec();
                CALLS.iter().for_each(|call| call.agrees(least, &job, out));
                return job;
            }
        }
    }
}

#[derive(Clone, Copy, PartialEq)]
enum Call {
    Evaluate,
    Simplify,
    Substitute,
    ToReal,
    Compile,
    Play,
    PlayTree, // beside the Rust with the tree at hand: it parses the sheet alone
}

const CALLS: [Call; 7] =
    [Call::Evaluate, Call::Simplify, Call::Substitute, Call::ToReal, Call::Compile, Call::Play, Call::PlayTree];

// What is compared: the value's bits with all NaNs as one, the bytes, or nothing but that there is an answer.
#[derive(Debug, PartialEq)]
enum Told {
    Value([u64; 2]),
    Bytes(Vec<u8>),
    Nothing,
}

impl Call {
    fn name(self) -> &'static str {
        match self {
            Call::Evaluate => "evaluate",
            Call::Simplify => "simplify",
            Call::Substitute => "substitute",
            Call::ToReal => "to_real",
            Call::Compile => "compile",
            Call::Play => "play",
            Call::PlayTree => "play, tree at hand",
        }
    }

    #[inline(always)]
    fn make(self, work: &mut Work, job: &Job, out: &mut [u8], answer: &mut Answer) -> u64 {
        match self {
            Call::Evaluate => work.evaluate(&job.list, &job.sheet, answer),
            Call::Simplify => work.simplify(&job.list, &[], LIMIT, out, answer),
            Call::Substitute => work.substitute(&job.with_swaps, out, answer),
            Call::ToReal => work.to_real(&job.list, answer),
            Call::Compile => work.compile(&job.list, out, answer),
            Call::Play | Call::PlayTree => work.play(&job.tape, &job.sheet, answer),
        }
    }

    // What the call returns: these listings are no numbers.
    fn expected(self) -> u64 {
        if self == Call::ToReal { NOT_A_NUMBER } else { 0 }
    }

    // The same by std and the Rust's own module.
    #[inline(always)]
    fn make_plain(self, job: &Job) -> Option<Told> {
        let value = |z: num_complex::Complex64| Told::Value([z.re, z.im].map(oracle::trace::bits));
        match self {
            Call::Evaluate | Call::Play => plain::evaluate(&job.list, &job.sheet).map(value),
            Call::PlayTree => plain::evaluate_tree(&job.tree, &job.sheet).map(value),
            Call::Simplify => plain::simplify(&job.list).map(|text| Told::Bytes(text.into_bytes())),
            Call::Substitute => plain::substitute(&job.with_swaps).map(|text| Told::Bytes(text.into_bytes())),
            Call::Compile => plain::compile(&job.list).map(Told::Bytes),
            Call::ToReal => plain::listing(&job.list)?.0.to_real().is_err().then_some(Told::Nothing),
        }
    }

    fn agrees(self, work: &mut Work, job: &Job, out: &mut [u8]) {
        let mut answer = [0; 6];
        assert_eq!(self.make(work, job, out, &mut answer), self.expected());
        let here = match self {
            Call::Evaluate | Call::Play | Call::PlayTree => Told::Value([answer[2], answer[3]]),
            Call::ToReal => Told::Nothing,
            Call::Compile => Told::Bytes(out[..answer[1] as usize].to_vec()),
            _ => Told::Bytes(plain::rewritten(&out[..answer[1] as usize]).expect("a listing").into_bytes()),
        };
        assert_eq!(Some(here), self.make_plain(job), "{} is answered in two ways", self.name());
    }
}

// ---- times

// Fowler, Noll and Vo's sum of 64 bits.
struct Sum(u64);

impl Sum {
    fn add(&mut self, bytes: &[u8]) {
        bytes.iter().for_each(|b| self.0 = (self.0 ^ u64::from(*b)).wrapping_mul(0x0100_0000_01B3));
    }
}

// All calls once, with their answers and outputs in the sum.
fn summed(call: Call, jobs: &[Job], work: &mut Work, out: &mut [u8], sum: &mut Sum) {
    for job in jobs {
        let mut answer = [0; 6];
        assert_eq!(call.make(work, job, out, &mut answer), call.expected());
        answer.iter().for_each(|word| sum.add(&word.to_le_bytes()));
        sum.add(&out[..answer[1] as usize]);
    }
}

// Nanoseconds a call.
#[inline(never)]
fn time(call: Call, jobs: &[Job], work: &mut Work, out: &mut [u8]) -> f64 {
    let (mut answer, mut returned) = ([0; 6], 0);
    let start = now();
    for job in jobs {
        returned |= call.make(work, job, out, &mut answer);
    }
    let taken = now() - start;
    assert_eq!(black_box(returned), call.expected());
    taken * 1e9 / jobs.len() as f64
}

#[inline(never)]
fn time_plain(call: Call, jobs: &[Job]) -> f64 {
    let (mut answered, start) = (0, now());
    for job in jobs {
        answered += usize::from(black_box(call.make_plain(job)).is_some());
    }
    let taken = now() - start;
    assert_eq!(answered, jobs.len());
    taken * 1e9 / jobs.len() as f64
}

// Whether a listing is tried with a store: one of as many rows as it has nodes, and as many again for what a call builds.
fn is_tried(size: usize, room: usize) -> bool {
    2 * size <= room
}

// What is wanted of the ratio.
fn goal(size: usize) -> f64 {
    if size < 20 { 1.0 } else { 0.5 }
}

// A line for each store. Each round has listings of its own, which each side goes through once before and once in time; another is
// first in each. Which of the lines meet the goal is the answer.
fn rows(call: Call, size: usize, rounds: usize, sum: &mut Sum) -> [usize; 2] {
    let (mut random, mut out) = (Random(0xA076_1D64_78BD_642F), vec![0; OUT]);
    let tried: Vec<usize> = ROOMS.into_iter().filter(|room| is_tried(size, *room)).collect();
    let mut least = Work::new(tried[0]);
    let is_play = [Call::Play, Call::PlayTree].contains(&call);
    let rooms = if is_play { vec![0] } else { tried };
    let mut works: Vec<Work> = rooms.iter().map(|room| Work::new(*room)).collect();
    let sides = rooms.len() + 1; // the last is the Rust's
    let mut times = vec![Vec::new(); sides];
    for k in 0..rounds {
        let jobs: Vec<Job> = (0..NODES / size).map(|_| Job::new(&mut random, size, &mut least, &mut out)).collect();
        for n in (0..sides).map(|n| (n + k) % sides) {
            if n == rooms.len() {
                time_plain(call, &jobs);
                times[n].push(time_plain(call, &jobs));
            } else {
                summed(call, &jobs, &mut works[n], &mut out, sum);
                times[n].push(time(call, &jobs, &mut works[n], &mut out));
            }
        }
    }
    let rust = times.pop().expect("the Rust's");
    let mut met = [0, 0];
    for (room, here) in rooms.iter().zip(times) {
        let [low, ratio, high] = quartiles(here.iter().zip(&rust).map(|(h, r)| h / r));
        let [h, r] = [here, rust.clone()].map(|t| quartiles(t.into_iter())[1]);
        let is_met = ratio <= goal(size) && ratio < 1.0;
        met[usize::from(!is_met)] += 1;
        let room = if is_play { "-".into() } else { room.to_string() };
        let word = if is_met { "" } else { "  missed" };
        println!("{:<20}{size:>5}{room:>6}{h:>12.0}{r:>12.0}{ratio:>9.3} [{low:.3}, {high:.3}]{word}", call.name());
    }
    met
}

fn main() {
    let rounds = std::env::args().nth(1).map_or(ROUNDS, |n| n.parse().expect("a number of rounds"));
    let (mut sum, mut met) = (Sum(0xCBF2_9CE4_8422_2325), [0, 0]);
    println!("{:<20}{:>5}{:>6}{:>12}{:>12}{:>9} [quartiles]", "ns a call", "size", "rows", "here", "Rust", "ratio");
    for call in CALLS {
        for size in SIZES {
            let lines = rows(call, size, rounds, &mut sum);
            met = [0, 1].map(|k| met[k] + lines[k]);
        }
    }
    println!("\nwanted: below 1, and at most 0.5 from 20 nodes on; met in {} lines of {}", met[0], met[0] + met[1]);
    println!("sum of all answers and outputs: {:016X}", sum.0);
}
