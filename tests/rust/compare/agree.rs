// Compares the rules' simplifying, as compare/model.rs has it, with the Rust's: small trees taken systematically and random
// ones, at every limit from 0 to 10. The port is not asked. Arguments: how many random trees, and a seed. tests/rust/run
// builds it.
#![allow(dead_code)] // what only the other comparison uses
mod arithmetic;
mod cases;
mod forest;
mod model;
mod question;
mod random;
mod rows;
mod rust;
mod store;
mod tape;
mod texts;
mod verdict;
mod zero;

use cases::{Case, arms};
use model::{Hits, Model, add_hits, all_hit, print_hits};
use oracle::nodes::Node;
use random::Random;
use rust::Rust;
use std::collections::BTreeMap;
use std::{env, process::ExitCode};
use store::Store;
use texts::listing;
use verdict::{Verdict, verdict};

const SEED: u64 = 1;
const COUNT: u64 = 20_000;
const LIMITS: u64 = 10;
const SHOWN: u64 = 5;

#[derive(Default)]
struct Tally {
    trees: BTreeMap<&'static str, u64>,
    runs: BTreeMap<&'static str, u64>,
    hits: Hits,
    most_calls: BTreeMap<u64, u64>,
    pi: BTreeMap<u64, usize>, // the fewest lines of a tree whose result is pi, by limit
    differ: u64,
}

fn most_calls(limit: u64) -> u64 {
    if limit == 0 { 1 } else { 1 + 2 * most_calls(limit - 1) + 4 * most_calls(limit.saturating_sub(2)) }
}

impl Tally {
    fn differs(&mut self, nodes: &[Node], limit: u64, why: &str) {
        self.differ += 1;
        if self.differ <= SHOWN {
            println!("DIFFERS at limit {limit}: {why}\n{}", listing(nodes, &[]));
        }
    }

    fn note(&mut self, model: &Model, result: usize, lines: usize, limit: u64) {
        if matches!(model.store.node(result), Node::Pi) {
            let fewest = self.pi.entry(limit).or_insert(lines);
            *fewest = lines.min(*fewest);
        }
        add_hits(&mut self.hits, &model.hits);
        let most = self.most_calls.entry(limit).or_default();
        *most = model.calls.max(*most);
    }

    fn run(&mut self, nodes: &[Node], rust: &Rust, limit: u64) {
        let mut model = Model::new(Store::unlimited(), None);
        let result = model.run(nodes, limit).expect("no limits");
        let written = listing(&model.lines(result), &[]);
        let outcome = match verdict(&model, written.as_bytes(), rust, limit) {
            Verdict::Same => "same",
            Verdict::SameIfApart => "same; a zero of another sign if the Rust makes equal nodes one",
            Verdict::OtherZero => "same but for the sign of a zero",
            Verdict::NotCompared(corner) => corner,
            Verdict::Differs(why) => {
                self.differs(nodes, limit, &why);
                "differ"
            }
        };
        if !outcome.starts_with("corner") {
            self.note(&model, result, nodes.len(), limit);
        }
        if model.calls > most_calls(limit) {
            self.differs(nodes, limit, "more calls than there can be");
        }
        *self.runs.entry(outcome).or_default() += 1;
    }

    fn tree(&mut self, what: &'static str, nodes: &[Node]) {
        *self.trees.entry(what).or_default() += 1;
        let case = Case::of(nodes);
        let rust = Rust::new(&case);
        for limit in 0..=LIMITS {
            self.run(nodes, &rust, limit);
        }
    }

    fn random(&mut self, count: u64, seed: u64) {
        let mut random = Random::new(seed);
        for _ in 0..count {
            let case = arms::to_simplify(&mut random);
            case.features().into_iter().for_each(|f| *self.trees.entry(f).or_default() += 1);
            self.tree("random, to size 500", &case.nodes);
        }
    }

    fn print(&self) {
        print_hits(&self.hits);
        for (limit, n) in &self.most_calls {
            println!("{n:>12}  calls at most at limit {limit}, of {} there can be", most_calls(*limit));
        }
        for (limit, n) in &self.pi {
            println!("{n:>12}  lines at least of a tree whose result is pi at limit {limit}");
        }
        for (what, n) in &self.trees {
            println!("{n:>12}  trees: {what}");
        }
        for (outcome, n) in &self.runs {
            println!("{n:>12}  {outcome}");
        }
        println!("{:>12}  differ", self.differ);
    }
}

fn number(text: Option<&String>, otherwise: u64) -> u64 {
    text.map_or(otherwise, |t| t.parse().expect("a whole number"))
}

fn main() -> ExitCode {
    let words: Vec<String> = env::args().skip(1).collect();
    let mut tally = Tally::default();
    forest::each(|what, nodes| tally.tree(what, nodes));
    tally.random(number(words.first(), COUNT), number(words.get(1), SEED));
    tally.print();
    let is_clean = tally.differ == 0 && all_hit(&tally.hits);
    if is_clean { ExitCode::SUCCESS } else { ExitCode::FAILURE }
}
