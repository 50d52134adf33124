// Compares the proved port with the Rust. Arguments: how many random cases, and a seed; before them --simplify for
// simplifying or --tape for the tape, which have small trees taken systematically too. tests/rust/run builds it.
#![allow(dead_code)] // what only the comparison without the port uses
mod arithmetic;
mod cases;
mod check;
mod damage;
mod drawing;
mod expected;
mod forest;
mod model;
mod origins;
mod port;
mod question;
mod random;
mod rows;
mod rust;
mod store;
mod tape;
mod texts;
mod verdict;
mod zero;

use std::{env, process::ExitCode};

const SEED: u64 = 1;
const COUNT: u64 = 120_000;
const TO_SIMPLIFY: u64 = 40_000;
const TO_COMPILE: u64 = 120_000;

fn number(text: Option<&String>, otherwise: u64) -> u64 {
    text.map_or(otherwise, |t| t.parse().expect("a whole number"))
}

fn main() -> ExitCode {
    let mut words: Vec<String> = env::args().skip(1).collect();
    let (run, otherwise): (fn(u64, u64) -> check::Tally, u64) = match words.first().map(String::as_str) {
        Some("--simplify") => (check::Tally::simplifying, TO_SIMPLIFY),
        Some("--tape") => (check::Tally::taping, TO_COMPILE),
        _ => (check::Tally::run, COUNT),
    };
    if words.first().is_some_and(|w| w.starts_with("--")) {
        words.remove(0);
    }
    let (count, seed) = (number(words.first(), otherwise), number(words.get(1), SEED));
    println!("{count} random cases, seed {seed}");
    let tally = run(seed, count);
    tally.print();
    if tally.is_clean() { ExitCode::SUCCESS } else { ExitCode::FAILURE }
}
