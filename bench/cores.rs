// Times of evaluating, playing, compiling and simplifying alone, in the archive that ships, against the Rust's own functions on the
// same trees and against plain C (bound.c). bench/run builds it; an argument says how many rounds. The archive has whole calls, so the
// times here are differences of such calls in one round:
//
//   reading      to_real, which looks at the root alone; clearing is in it
//   the sheet    playing one step under it, less the same under none
//   evaluate     evaluate, less the two
//   play         play, which checks too, less playing one step under the sheet
//   compile      compile, less reading
//   writing      simplify at limit 0 of what was written, which changes nothing, less reading it
//   simplify     simplify, which writes too, less reading, the sheet and writing
//
// A part of a call finds the processor as the parts before leave it, its guesses above all, and the same function takes up to twice as
// long there as in a loop of its own. So the Rust and the C are timed after the same calls, which are taken off: `Rust` and `plain C`
// are such differences too, and `alone` is the Rust in a loop of its own.
use common::{Random, listing, lent::TABLE, now, quartiles};
use drawn::{MIXES, Mix, REGIONS, grown};
use num_complex::Complex64;
use oracle::{
    expression::{Expression, simplified},
    nodes::Node,
    trace::Trace,
};
use port::Work;
use shapes::{SHAPES, Shape};
use std::{collections::HashMap, fmt::Write, hint::black_box};

mod common;
#[path = "common/drawn.rs"]
mod drawn;
#[allow(dead_code)]
#[path = "calls/plain.rs"]
mod plain;
#[path = "calls/port.rs"]
mod port;
#[path = "common/shapes.rs"]
mod shapes;

const SIZES: [usize; 4] = [20, 60, 200, 500];
const NODES: usize = 4000; // of the trees of a round
const SHEET: usize = 100; // nodes of the trees with functions that share a sheet
const PASSES: usize = 4; // over the trees, in time
const ROUNDS: usize = 101;
const ROWS: usize = 4096;
const LIMIT: u64 = 10;
const OUT: usize = 36864;
const SEED: u64 = 0xA076_1D64_78BD_642F;
const NEED: u64 = 9;
const PI_STEP: [u8; 24] = [2, 0, 0, 0, 0, 0, 0, 0, 0, 0, 0, 0, 0, 0, 0, 0, 0, 0, 0, 0, 0, 0, 0, 0]; // a tape of one step

// ---- plain C

#[repr(C)]
struct Bound {
    table: *const u64,
    counts: [u64; 3],
}

unsafe extern "C" {
    fn bound_evaluate(rows: *mut [u64; 4], sheet: &Bound, node: u64, value: &mut [f64; 2]) -> i32;
    fn bound_play(tape: *const u8, steps: u64, sheet: &Bound, value: &mut [f64; 2]) -> i32;
}

// The rows that the store has for these lines, each node once. Nothing is linked: C does not look for nodes.
fn rows_of(nodes: &[Node]) -> Vec<[u64; 4]> {
    let (mut rows, mut known, mut at): (Vec<[u64; 4]>, HashMap<[u64; 3], u64>, Vec<u64>) = Default::default();
    for node in nodes {
        let [code, first, second] = match *node {
            Node::Number(z) => [1, z.re.to_bits(), z.im.to_bits()],
            Node::Pi => [2, 0, 0],
            Node::Variable(v) => [3, v.into(), 0],
            Node::Cell(r, i) => [4, r.into(), i.into()],
            Node::Function(f, a) => [5 + 8 * [5, 2, 3, 1, 4][f as usize], at[a], 0],
            Node::Prefix(o, a) => [6 + 8 * (1 + o as u64), at[a], 0],
            Node::Infix(o, a, b) => [7 + 8 * [5, 1, 2, 4, 3][o as usize], at[a], at[b]],
        };
        let next = rows.len() as u64;
        let number = *known.entry([code, first, second]).or_insert(next);
        if number == next {
            rows.push([0, code, first, second]);
        }
        at.push(number);
    }
    rows
}

// The table of a sheet: variables, cells and function values, each kind in its own part, and the counts.
fn table_of(sheet: &str) -> (Vec<u64>, [u64; 3]) {
    let (mut table, mut counts) = (vec![0; TABLE], [0; 3]);
    for line in sheet.lines() {
        let fields: Vec<&str> = line.split('\t').collect();
        let (decimal, hex) = (|k: usize| fields[k].parse::<u64>().unwrap(), |k: usize| u64::from_str_radix(fields[k], 16).unwrap());
        let (kind, from, row) = match fields[0] {
            "v" => (0, 0, vec![decimal(1), hex(2), hex(3)]),
            "m" => (1, 768, vec![(decimal(1) << 32) + decimal(2), hex(3)]),
            _ => {
                let name = 1 + ["sin", "cos", "exp", "sqrt", "pow"].iter().position(|n| *n == fields[1]).unwrap() as u64;
                (2, 2816, [name].into_iter().chain((2..8).map(hex)).collect())
            }
        };
        let at = from + row.len() * counts[kind] as usize;
        table[at..at + row.len()].copy_from_slice(&row);
        counts[kind] += 1;
    }
    (table, counts)
}

// ---- what is timed

struct Tree {
    list: Vec<u8>,
    tape: Vec<u8>,
    result: Vec<u8>, // simplified
    rust: Expression,
    input: Option<Expression>, // what the Rust's simplifying consumes, and what it gives
    output: Option<(Expression, Option<String>)>,
    rows: Vec<[u64; 4]>,
    used: Vec<[u64; 4]>, // a copy, which evaluating in C uses up
}

// Trees under one sheet.
struct Job {
    sheet: Vec<u8>,
    values: plain::Values,
    table: Vec<u64>,
    counts: [u64; 3],
    trees: Vec<Tree>,
}

impl Tree {
    fn new(nodes: &[Node]) -> Tree {
        let (list, rows) = (listing(nodes), rows_of(nodes));
        let rust = plain::listing(&list).expect("a listing").0;
        Tree { list, tape: vec![], result: vec![], rust, input: None, output: None, used: rows.clone(), rows }
    }
}

impl Job {
    fn new(text: String, trees: Vec<Tree>) -> Job {
        let (values, (table, counts)) = (plain::sheet(text.as_bytes()).expect("a sheet"), table_of(&text));
        Job { sheet: text.into_bytes(), values, table, counts, trees }
    }

    fn bound(&self) -> Bound {
        Bound { table: self.table.as_ptr(), counts: self.counts }
    }
}

// The library's memory, and an output.
struct Here {
    work: Work,
    out: Vec<u8>,
    answer: port::Answer,
}

impl Here {
    fn new(rows: usize) -> Here {
        Here { work: Work::new(rows), out: vec![0; OUT], answer: [0; 6] }
    }

    // The same bits, any NaN for any, and a zero for a zero.
    fn is_value(&self, z: Complex64) -> bool {
        let is_nan = |bits: u64| f64::from_bits(bits).is_nan();
        let same = |x: f64, bits: u64| x.to_bits() == bits || x == 0.0 && bits << 1 == 0 || x.is_nan() && is_nan(bits);
        same(z.re, self.answer[2]) && same(z.im, self.answer[3])
    }

    // The tape, and that all sides agree on the value; not so if a zero of the other sign lacks a row.
    fn agrees(&mut self, job: &Job, tree: &mut Tree) -> bool {
        let Here { work, out, answer } = self;
        assert_eq!(work.compile(&tree.list, out, answer), 0);
        tree.tape = out[..answer[1] as usize].to_vec();
        let refused = [work.evaluate(&tree.list, &job.sheet, answer), work.play(&tree.tape, &job.sheet, answer)];
        if refused == [NEED; 2] {
            return false;
        }
        let ([mut evaluated, mut played], root) = ([[0.0; 2]; 2], tree.rows.len() as u64 - 1);
        let steps = tree.tape.len() as u64 / 24;
        let lacks = unsafe {
            [
                bound_evaluate(tree.rows.clone().as_mut_ptr(), &job.bound(), root, &mut evaluated),
                bound_play(tree.tape.as_ptr(), steps, &job.bound(), &mut played),
            ]
        };
        assert_eq!((refused, lacks), ([0; 2], [0; 2]));
        let by_rust = tree.rust.evaluate(&job.values.0, &job.values.1).expect("a value");
        [evaluated, played].into_iter().for_each(|[re, im]| assert!(self.is_value(Complex64::new(re, im))));
        assert!(self.is_value(by_rust), "{by_rust} is not {:X?}", self.answer);
        true
    }
}

fn bound_lines(random: &mut Random, mix: Mix) -> String {
    let mut text = String::new();
    for v in 0..mix.variables {
        let z = random.number();
        writeln!(text, "v\t{v}\t{:016X}\t{:016X}", z.re.to_bits(), z.im.to_bits()).unwrap();
    }
    for (region, index) in (0..REGIONS).flat_map(|r| (0..mix.cells).map(move |i| (r, i))) {
        writeln!(text, "m\t{region}\t{index}\t{:016X}", random.real().to_bits()).unwrap();
    }
    text
}

// Trees for evaluating, drawn again where the sign of a zero decides or there are too many function values.
fn evaluated(here: &mut Here, random: &mut Random, mix: Mix, size: usize, count: usize) -> Job {
    loop {
        let text = if mix.bound { bound_lines(random, mix) } else { String::new() };
        let trees: Vec<Tree> = (0..count).map(|_| Tree::new(&grown(random, mix, size))).collect();
        let values = plain::sheet(text.as_bytes()).expect("a sheet");
        let mut trace = Trace::new(&values.0, &values.1);
        trees.iter().for_each(|t| assert!(trace.value(&t.rust).is_ok()));
        let asked = trace.asks.list;
        if asked.len() <= 256 && !asked.iter().any(|a| a.is_corner()) {
            let mut job = Job::new(text + &common::rows(&asked), vec![]);
            let agreed: Option<Vec<Tree>> = trees.into_iter().map(|mut t| here.agrees(&job, &mut t).then_some(t)).collect();
            if let Some(trees) = agreed {
                job.trees = trees;
                return job;
            }
        }
    }
}

// Trees for simplifying, drawn again where there is a refusal, too many function values, or the sign of a zero decides.
fn to_simplify(here: &mut Here, random: &mut Random, shape: Shape, size: usize, count: usize) -> Job {
    loop {
        let trees: Vec<Tree> = (0..count).map(|_| Tree::new(&shapes::drawn(random, shape, size))).collect();
        let mut asked = vec![];
        for a in trees.iter().flat_map(|t| simplified(LIMIT, &t.rust).1.asks.list) {
            if !asked.contains(&a) {
                asked.push(a);
            }
        }
        if asked.len() > 256 || asked.iter().any(|a| a.is_corner()) {
            continue;
        }
        let (mut job, Here { work, out, answer }) = (Job::new(common::rows(&asked), trees), &mut *here);
        let is_same = |t: &mut Tree| {
            let refused = work.simplify(&t.list, &job.sheet, LIMIT, out, answer);
            t.result = out[..answer[1] as usize].to_vec();
            let by_rust = plain::written(t.rust.clone().into_simplified());
            assert!(refused != 0 || plain::rewritten(&t.result) == by_rust, "two results");
            refused == 0
        };
        if job.trees.iter_mut().all(is_same) {
            return job;
        }
    }
}

// ---- times

// What is done before what is timed: nothing, the listing read, the sheet read, or both.
#[derive(Clone, Copy, PartialEq)]
enum Before {
    Nothing,
    Reading,
    Sheet,
    Both,
}

#[derive(Clone, Copy, PartialEq)]
enum Timed {
    Nothing,
    Rust,
    RustSimplify,
    RustWrite,
    NoSheet,
    Evaluate,
    Play,
    Compile,
    Simplify,
    ReadResult,
    WriteResult,
    BoundEvaluate,
    BoundPlay,
}

type Side = (Before, Timed);

impl Tree {
    // What is used up is there again, and what was made is dropped.
    fn prepare(&mut self, timed: Timed) {
        self.output = None;
        if timed == Timed::BoundEvaluate {
            self.used.copy_from_slice(&self.rows);
        }
        if [Timed::RustSimplify, Timed::RustWrite].contains(&timed) {
            self.input = Some(self.rust.clone());
        }
    }
}

impl Here {
    #[inline(always)]
    fn begin(&mut self, before: Before, sheet: &[u8], list: &[u8]) {
        if [Before::Reading, Before::Both].contains(&before) {
            self.work.to_real(list, &mut self.answer);
        }
        if [Before::Sheet, Before::Both].contains(&before) {
            self.work.play(&PI_STEP, sheet, &mut self.answer);
        }
    }

    // Nanoseconds for each tree.
    fn time(
        &mut self, side: Side, jobs: &mut [Job], passes: usize,
        mut call: impl FnMut(&mut Here, &[u8], &plain::Values, &Bound, &mut Tree) -> u64,
    ) -> f64 {
        let (mut count, mut taken, mut lacks) = (0, 0.0, 0);
        for _ in 0..passes {
            jobs.iter_mut().flat_map(|j| &mut j.trees).for_each(|t| t.prepare(side.1));
            let start = now();
            for job in jobs.iter_mut() {
                let bound = job.bound();
                let Job { sheet, values, trees, .. } = job;
                for tree in trees.iter_mut() {
                    self.begin(side.0, sheet, &tree.list);
                    lacks += call(self, sheet, values, &bound, tree);
                    count += 1;
                }
            }
            taken += now() - start;
        }
        black_box(lacks);
        taken * 1e9 / f64::from(count)
    }

    fn time_side(&mut self, side: Side, jobs: &mut [Job], passes: usize) -> f64 {
        match side.1 {
            Timed::Nothing => self.time(side, jobs, passes, |_, _, _, _, _| 0),
            Timed::Rust => self.time(side, jobs, passes, |_, _, v, _, t| black_box(t.rust.evaluate(&v.0, &v.1)).is_err().into()),
            Timed::RustSimplify => self.time(side, jobs, passes, |_, _, _, _, t| {
                t.output = t.input.take().map(|e| (e.into_simplified(), None));
                0
            }),
            Timed::RustWrite => self.time(side, jobs, passes, |_, _, _, _, t| {
                t.output = t.input.take().map(|e| {
                    let simple = e.into_simplified();
                    (simple.clone(), plain::written(simple))
                });
                0
            }),
            Timed::NoSheet => self.time(side, jobs, passes, |h, _, _, _, _| h.work.play(&PI_STEP, &[], &mut h.answer)),
            Timed::Evaluate => self.time(side, jobs, passes, |h, s, _, _, t| h.work.evaluate(&t.list, s, &mut h.answer)),
            Timed::Play => self.time(side, jobs, passes, |h, s, _, _, t| h.work.play(&t.tape, s, &mut h.answer)),
            Timed::Compile => self.time(side, jobs, passes, |h, _, _, _, t| h.work.compile(&t.list, &mut h.out, &mut h.answer)),
            Timed::Simplify => {
                self.time(side, jobs, passes, |h, s, _, _, t| h.work.simplify(&t.list, s, LIMIT, &mut h.out, &mut h.answer))
            }
            Timed::ReadResult => self.time(side, jobs, passes, |h, _, _, _, t| h.work.to_real(&t.result, &mut h.answer)),
            Timed::WriteResult => {
                self.time(side, jobs, passes, |h, _, _, _, t| h.work.simplify(&t.result, &[], 0, &mut h.out, &mut h.answer))
            }
            Timed::BoundEvaluate => self.time(side, jobs, passes, |_, _, _, b, t| unsafe {
                bound_evaluate(t.used.as_mut_ptr(), b, t.used.len() as u64 - 1, &mut [0.0; 2]) as u64
            }),
            Timed::BoundPlay => self.time(side, jobs, passes, |_, _, _, b, t| unsafe {
                bound_play(t.tape.as_ptr(), t.tape.len() as u64 / 24, b, &mut [0.0; 2]) as u64
            }),
        }
    }
}

// The times of all sides, a round after another; in each another side is first. Every round has trees of its own, which the processor
// would else learn.
struct Times<const N: usize>([Side; N], Vec<[f64; N]>);

// A round's time of a side.
type Round<'a> = &'a dyn Fn(Before, Timed) -> f64;

impl<const N: usize> Times<N> {
    fn new(here: &mut Here, rounds: usize, sides: [Side; N], mut draw: impl FnMut(&mut Here) -> Vec<Job>) -> Times<N> {
        let mut times = vec![[0.0; N]; rounds];
        for (k, taken) in times.iter_mut().enumerate() {
            let mut jobs = draw(here);
            for n in (0..N).map(|n| (n + k) % N) {
                here.time_side(sides[n], &mut jobs, 1);
                taken[n] = here.time_side(sides[n], &mut jobs, PASSES);
            }
        }
        Times(sides, times)
    }

    // Quartiles of what is made of a round's times.
    fn quartiles(&self, of: impl Fn(Round) -> f64) -> [f64; 3] {
        let at = |side: Side| self.0.iter().position(|s| *s == side).expect("a side that is timed");
        quartiles(self.1.iter().map(|taken| of(&|before, timed| taken[at((before, timed))])))
    }
}

// ---- rows

fn after(t: Round, before: Before, timed: Timed) -> f64 {
    t(before, timed) - t(before, Timed::Nothing)
}

// A whole call with a listing and a sheet, less reading both.
fn core(t: Round, timed: Timed) -> f64 {
    t(Before::Nothing, timed) - t(Before::Both, Timed::Nothing) + t(Before::Nothing, Timed::NoSheet)
}

fn writing(t: Round) -> f64 {
    t(Before::Nothing, Timed::WriteResult) - t(Before::Nothing, Timed::ReadResult)
}

// Whether the goal is met, and whether it is beside the Rust alone.
type Met = [bool; 2];

type Made<'a> = &'a dyn Fn(Round) -> f64;

// The Rust's time, the time here and the ratio; the Rust's alone and the ratio to it; what another side takes, and the ratio of what is
// beside that.
struct Row<'a> {
    name: String,
    size: usize,
    goal: f64,
    here: Made<'a>,
    rust: Made<'a>,
    alone: Timed,
    beside: Made<'a>,
    other: Made<'a>,
}

impl Row<'_> {
    fn print<const N: usize>(&self, times: &Times<N>) -> Met {
        let Row { name, size, goal, here, rust, alone, beside, other } = self;
        let alone = |t: Round| t(Before::Nothing, *alone);
        let [low, ratio, high] = times.quartiles(|t| here(t) / rust(t));
        let [h, r, o, a] = [*here, *rust, *other, &alone].map(|of| times.quartiles(of)[1]);
        let [to_alone, to_other] = [times.quartiles(|t| here(t) / alone(t))[1], times.quartiles(|t| beside(t) / other(t))[1]];
        let (range, word) = (format!("[{low:.3}, {high:.3}]"), if ratio <= *goal { "" } else { "missed" });
        print!("{name:<24}{size:>5}{r:>9.0}{h:>9.0}{ratio:>8.3} {range:<16}{goal:>5.2}");
        println!("{a:>9.0}{to_alone:>7.2}{o:>15.0}{to_other:>7.2}  {word}");
        [ratio, to_alone].map(|ratio| ratio <= *goal)
    }
}

fn head(name: &str, other: &str) {
    let [size, rust, here, ratio, goal, alone] = ["size", "Rust", "here", "ratio", "goal", "alone"];
    print!("{name:<24}{size:>5}{rust:>9}{here:>9}{ratio:>8} {:<16}{goal:>5}", "[quartiles]");
    println!("{alone:>9}{ratio:>7}{other:>15}{ratio:>7}");
}

fn evaluation_rows(mix: Mix, size: usize, rounds: usize) -> [Met; 2] {
    use Before::*;
    let mut random = Random(SEED);
    let together = if mix.functions { (SHEET / size).max(1) } else { NODES / size };
    let count = NODES / size / together;
    let sides = [
        (Nothing, Timed::Rust), (Both, Timed::Rust), (Sheet, Timed::Rust), (Nothing, Timed::Evaluate), (Nothing, Timed::Play),
        (Nothing, Timed::Compile), (Reading, Timed::Nothing), (Sheet, Timed::Nothing), (Both, Timed::Nothing), (Nothing, Timed::NoSheet),
        (Both, Timed::BoundEvaluate), (Sheet, Timed::BoundPlay),
    ];
    // few rows, so that clearing them does not push all else out of the caches
    let times = Times::new(&mut Here::new(size), rounds, sides, |here| {
        (0..count).map(|_| evaluated(here, &mut random, mix, size, together)).collect()
    });
    let evaluate = Row {
        name: format!("evaluate, {}", mix.name),
        size,
        goal: 1.0,
        here: &|t| core(t, Timed::Evaluate),
        rust: &|t| after(t, Both, Timed::Rust),
        alone: Timed::Rust,
        beside: &|t| core(t, Timed::Evaluate),
        other: &|t| after(t, Both, Timed::BoundEvaluate),
    };
    let play = Row {
        name: format!("play, {}", mix.name),
        goal: if mix.name == "numbers" { 0.75 } else { 1.0 },
        here: &|t| t(Nothing, Timed::Play) - t(Sheet, Timed::Nothing),
        rust: &|t| after(t, Sheet, Timed::Rust),
        beside: &|t| t(Nothing, Timed::Play) - t(Sheet, Timed::Nothing),
        other: &|t| after(t, Sheet, Timed::BoundPlay),
        ..evaluate
    };
    let met = [evaluate.print(&times), play.print(&times)];
    let [low, compiling, high] = times.quartiles(|t| t(Nothing, Timed::Compile) - t(Reading, Timed::Nothing));
    println!("{:<24}{size:>5}{:>9}{compiling:>9.0}{:>8} [{low:.0}, {high:.0}]", format!("compile, {}", mix.name), "-", "-");
    met
}

fn simplification_row(shape: Shape, size: usize, rounds: usize) -> Met {
    use Before::*;
    let mut random = Random(SEED);
    let together = if shape == Shape::Random { (SHEET / size).max(1) } else { NODES / size };
    let count = NODES / size / together;
    let sides = [
        (Nothing, Timed::RustSimplify), (Both, Timed::RustSimplify), (Both, Timed::RustWrite), (Nothing, Timed::Simplify),
        (Both, Timed::Nothing), (Nothing, Timed::NoSheet), (Nothing, Timed::ReadResult), (Nothing, Timed::WriteResult),
    ];
    let times = Times::new(&mut Here::new(ROWS), rounds, sides, |here| {
        (0..count).map(|_| to_simplify(here, &mut random, shape, size, together)).collect()
    });
    let is_low = shape == Shape::Sums || shape == Shape::Chain && size >= 60;
    let row = Row {
        name: shape.name().into(),
        size,
        goal: if is_low { 0.2 } else { 0.33 },
        here: &|t| core(t, Timed::Simplify) - writing(t),
        rust: &|t| after(t, Both, Timed::RustSimplify),
        alone: Timed::RustSimplify,
        beside: &|t| core(t, Timed::Simplify),
        other: &|t| after(t, Both, Timed::RustWrite),
    };
    row.print(&times)
}

fn main() {
    let rounds = std::env::args().nth(1).map_or(ROUNDS, |n| n.parse().expect("a number of rounds"));
    let mut met: Vec<Met> = vec![];
    head("ns a tree", "plain C");
    for mix in MIXES {
        SIZES.iter().for_each(|size| met.extend(evaluation_rows(mix, *size, rounds)));
    }
    println!();
    head("simplify, ns a tree", "Rust, written");
    for shape in SHAPES {
        SIZES.iter().for_each(|size| met.push(simplification_row(shape, *size, rounds)));
    }
    let [like, alone] = [0, 1].map(|k| met.iter().filter(|m| m[k]).count());
    println!("\nof {} rows {like} meet the goal; beside the Rust in a loop of its own {alone}", met.len());
}
