// The worst inputs that are known: milliseconds of each public call of the static library, from bytes, in a store of 4096, beside the
// Rust's own function on the same expression, which was parsed before. bench/run builds it; an argument has a part of the inputs'
// names. worst/inputs.rs has the inputs, worst/hash.rs those that collide, worst/search.rs how others were found.
use common::{Random, now};
use inputs::{COLLIDING, DRAWN, Input};
use oracle::{
    expression::Expression,
    nodes::{trees, variable_name},
};
use port::{Answer, Work};
use std::{collections::HashMap, hint::black_box};

mod common;
#[path = "worst/hash.rs"]
mod hash;
#[path = "worst/inputs.rs"]
mod inputs;
#[path = "calls/port.rs"]
mod port;

const ROOM: usize = 4096;
const LIMIT: u64 = 10;
const OUT: usize = 36864;
const CALLS: usize = 31; // of which the median and the worst are taken
const SECONDS: f64 = 0.3; // after which there are no more calls of one input
const REFUSALS: [&str; 16] = [
    "accepted", "BAD_LIST", "LONG_LIST", "BAD_SHEET", "LONG_SHEET", "BAD_LIMIT", "BIG", "DEEP", "ROOM", "NEED", "INCOMPLETE", "NOT_REAL",
    "NOT_A_NUMBER", "OUT_ROOM", "LONG_TAPE", "BAD_TAPE",
];

#[derive(Clone, Copy, Debug, PartialEq)]
enum Call {
    Evaluate,
    Substitute,
    ToReal,
    Compile,
    Simplify,
    Play,
}

const EACH: [Call; 6] = [Call::Evaluate, Call::Substitute, Call::ToReal, Call::Compile, Call::Simplify, Call::Play];

impl Call {
    // Milliseconds that it is to take at the most.
    fn goal(self) -> f64 {
        if self == Call::Simplify { 20.0 } else { 1.0 }
    }
}

// An input as it is called with.
struct Job {
    list: Vec<u8>,
    with_swaps: Vec<u8>,
    sheet: Vec<u8>,
    tape: Vec<u8>, // empty if it is not compiled
}

// ---- here

struct Here {
    work: Work,
    out: Vec<u8>,
}

impl Here {
    fn job(&mut self, input: &Input) -> Job {
        let (list, mut answer) = (input.list(), [0; 6]);
        self.work.compile(&list, &mut self.out, &mut answer);
        let compiled = if answer[0] == 0 { self.out[..answer[1] as usize].to_vec() } else { vec![] };
        let tape = if input.tape.is_empty() { compiled } else { input.tape.clone() };
        Job { list, with_swaps: input.list_with_swaps(), sheet: input.sheet.text(), tape }
    }

    fn call(&mut self, call: Call, job: &Job) -> Answer {
        let (Here { work, out }, mut answer) = (self, [0; 6]);
        match call {
            Call::Evaluate => work.evaluate(&job.list, &job.sheet, &mut answer),
            Call::Substitute => work.substitute(&job.with_swaps, out, &mut answer),
            Call::ToReal => work.to_real(&job.list, &mut answer),
            Call::Compile => work.compile(&job.list, out, &mut answer),
            Call::Simplify => work.simplify(&job.list, &job.sheet, LIMIT, out, &mut answer),
            Call::Play => work.play(&job.tape, &job.sheet, &mut answer),
        };
        answer
    }
}

// ---- the Rust

// The function on the expression, if the Rust has one.
fn by_rust(call: Call, input: &Input) -> Option<[f64; 2]> {
    let made = trees(&input.nodes);
    let root: Expression = (**made.last().unwrap()).clone();
    let (variables, memory) = input.sheet.maps();
    let put_in = |(v, line): &(u16, usize)| Some((variable_name(*v), (**made.get(*line)?).clone()));
    let swaps: HashMap<String, Expression> = input.swaps.iter().filter_map(put_in).collect();
    match call {
        Call::Play if !input.tape.is_empty() => None,
        Call::Evaluate | Call::Play => Some(times(|| _ = black_box(root.evaluate(&variables, &memory)))),
        Call::Substitute => Some(times(|| _ = black_box(root.substitute_variables(&swaps)))),
        Call::ToReal => Some(times(|| _ = black_box(root.to_real()))),
        Call::Simplify => Some(times(|| _ = black_box(root.clone().into_simplified()))),
        Call::Compile => None,
    }
}

// ---- times

// Milliseconds of some calls: the median and the most.
fn times(mut call: impl FnMut()) -> [f64; 2] {
    let (begin, mut taken) = (now(), vec![]);
    while taken.len() < CALLS && (taken.len() < 3 || now() - begin < SECONDS) {
        let start = now();
        call();
        taken.push((now() - start) * 1e3);
    }
    taken.sort_by(f64::total_cmp);
    [taken[taken.len() / 2], taken[taken.len() - 1]]
}

struct Row {
    name: String,
    call: Call,
    refusal: u64,
    median: f64,
}

fn row(here: &mut Here, input: &Input, job: &Job, call: Call) -> Row {
    let answer = here.call(call, job);
    let [median, most] = times(|| _ = black_box(here.call(call, job)));
    let rust = by_rust(call, input).map_or("-".into(), |t| format!("{:.4}", t[0]));
    let (name, lines, size) = (&input.name, input.nodes.len(), input.size());
    let told = REFUSALS[answer[0] as usize];
    let calls = if call == Call::Simplify && answer[0] == 0 { format!(", {} calls", answer[2]) } else { String::new() };
    println!("{name:<46}{lines:>6}{size:>9}  {:<11}{median:>10.4}{most:>10.4}{rust:>12}  {told}{calls}", format!("{call:?}"));
    Row { name: name.clone(), call, refusal: answer[0], median }
}

// The inputs that miss the goal, and whether what should collide does.
fn tell(rows: &[Row]) {
    for call in EACH {
        let all: Vec<&Row> = rows.iter().filter(|r| r.call == call).collect();
        let Some(worst) = all.iter().max_by(|a, b| a.median.total_cmp(&b.median)) else { continue };
        let over: Vec<&&Row> = all.iter().filter(|r| r.median > call.goal()).collect();
        println!("\n{call:?}: at most {} ms wanted; the worst is {:.4} ms, {}", call.goal(), worst.median, worst.name);
        over.iter().for_each(|r| println!("    missed: {:<46}{:>10.4} ms  {}", r.name, r.median, REFUSALS[r.refusal as usize]));
    }
    let time = |name: &str| rows.iter().find(|r| r.name == name && r.call == Call::ToReal).map(|r| r.median);
    if let (Some(colliding), Some(drawn)) = (time(COLLIDING), time(DRAWN)) {
        let ratio = colliding / drawn;
        let word = if ratio > 3.0 { "they collide" } else { "worst/hash.rs is no copy of the library's hash any more" };
        println!("\nnumbers sought to collide take {ratio:.1} times as long to read as others: {word}");
    }
}

fn main() {
    let part = std::env::args().nth(1).unwrap_or_default();
    let mut here = Here { work: Work::new(ROOM), out: vec![0; OUT] };
    println!("{:<46}{:>6}{:>9}  {:<11}{:>10}{:>10}{:>12}", "milliseconds", "lines", "size", "call", "median", "worst", "Rust");
    let mut rows = vec![];
    for input in inputs::all(&mut Random(0xA076_1D64_78BD_642F)).iter().filter(|i| i.name.contains(&part)) {
        let job = here.job(input);
        let is_made = |call: &Call| if *call == Call::Play { !job.tape.is_empty() } else { input.tape.is_empty() };
        rows.extend(EACH.into_iter().filter(is_made).map(|call| row(&mut here, input, &job, call)));
    }
    tell(&rows);
}
