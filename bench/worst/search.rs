// Searches for listings that simplify slowly at limit 10 in a store of 4096: by the number of simplify calls, by the time of a call
// that answers, and by the time of one that is refused. bench/run worst/search SECONDS FOLDER [SEED] writes the best of each to
// FOLDER/calls.list, time.list and refused.list, and begins with those that are there. Those beside this program were found so, from
// examples/simplify/full_store on.
//
// Each try starts from a random listing, changes a node, an operand or an operator at a time, and keeps what is not much worse
// (annealing). After many changes without a gain it starts anew, or from the best so far.
use common::{Random, listing, nodes, now};
use num_complex::Complex64;
use oracle::{
    expression::{ExpressionFunction, InfixOperator, PrefixOperator},
    nodes::Node,
};
use port::{Answer, Work};

#[path = "../common/mod.rs"]
mod common;
#[path = "../calls/port.rs"]
mod port;

const ROOM: usize = 4096;
const LIMIT: u64 = 10;
const OUT: usize = 36864;
const LINES: usize = 320; // at the most
const STALE: usize = 20000; // changes without a gain, after which a try ends

#[derive(Clone, Copy, Debug, PartialEq)]
enum Goal {
    Calls,
    Time,
    Refused,
}

const GOALS: [Goal; 3] = [Goal::Calls, Goal::Time, Goal::Refused];

// ---- listings

impl Random {
    fn leaf(&mut self) -> Node {
        match self.below(8) {
            0 => Node::Number(Complex64::new(self.below(4) as f64, self.below(2) as f64)),
            1 => Node::Pi,
            2 => Node::Cell(0, self.below(2) as u32),
            _ => Node::Variable(self.below(8) as u16),
        }
    }

    // A line before this one: mostly a near one.
    fn earlier(&mut self, at: usize) -> usize {
        if self.below(3) == 0 { self.below(at) } else { at - 1 - self.below(at.min(6)) }
    }

    fn inner(&mut self, at: usize) -> Node {
        use InfixOperator::*;
        let a = self.earlier(at);
        match self.below(20) {
            0 => Node::Function(ExpressionFunction::Sine, a),
            1 => Node::Prefix(PrefixOperator::Minus, a),
            2 => Node::Prefix(PrefixOperator::Plus, a),
            _ => Node::Infix([Plus, Plus, Plus, Star, Star, Minus, Slash, Caret][self.below(8)], a, self.earlier(at)),
        }
    }

    // Few leaves that are used over and over, or many under a tree that is nearly even; or something between.
    fn listing(&mut self) -> Vec<Node> {
        let (lines, again) = (10 << self.below(6), self.below(4));
        let leaves = 1 + self.below(if again == 0 { lines / 2 } else { lines / 4 });
        let mut nodes: Vec<Node> = (0..leaves).map(|_| self.leaf()).collect();
        let mut unused = 0;
        for at in leaves..lines {
            let node = self.inner(at);
            let fresh = unused + 1 < at && self.below(4) >= again;
            nodes.push(match node {
                Node::Infix(o, ..) if fresh => Node::Infix(o, unused, unused + 1),
                other => other,
            });
            unused += if fresh { 2 } else { 0 };
        }
        nodes
    }
}

// The same node over other lines.
fn over(node: Node, line: impl Fn(usize) -> usize) -> Node {
    match node {
        Node::Function(f, a) => Node::Function(f, line(a)),
        Node::Prefix(o, a) => Node::Prefix(o, line(a)),
        Node::Infix(o, a, b) => Node::Infix(o, line(a), line(b)),
        leaf => leaf,
    }
}

fn inserted(nodes: &[Node], at: usize, new: Node) -> Vec<Node> {
    let mut all = nodes[..at].to_vec();
    all.push(new);
    all.extend(nodes[at..].iter().map(|n| over(*n, |k| if k < at { k } else { k + 1 })));
    all
}

// Without a line; who named it names the one before.
fn removed(nodes: &[Node], at: usize) -> Vec<Node> {
    let kept = nodes.iter().enumerate().filter(|(k, _)| *k != at);
    kept.map(|(_, n)| over(*n, |k| if k < at { k } else { k - 1 })).collect()
}

fn changed(random: &mut Random, nodes: &[Node]) -> Vec<Node> {
    use InfixOperator::*;
    let mut new = nodes.to_vec();
    let at = 1 + random.below(nodes.len() - 1);
    match (random.below(8), nodes[at]) {
        (0..2, Node::Infix(_, a, b)) => new[at] = Node::Infix([Plus, Minus, Star, Slash, Caret][random.below(5)], a, b),
        (2, Node::Infix(o, a, _)) => new[at] = Node::Infix(o, a, random.earlier(at)),
        (3, Node::Infix(o, _, b)) => new[at] = Node::Infix(o, random.earlier(at), b),
        (4, _) if nodes.len() > 3 => new = removed(nodes, at),
        (5, _) if nodes.len() < LINES => {
            let node = random.inner(at);
            new = inserted(nodes, at, node);
            let user = at + 1 + random.below(new.len() - at - 1).min(4);
            let one = random.below(2) == 0;
            new[user] = match new[user] {
                Node::Infix(o, a, b) => Node::Infix(o, if one { at } else { a }, if one { b } else { at }),
                n => over(n, |_| at),
            };
        }
        (6, _) if at < 8 => new[at] = random.leaf(),
        _ => new[at] = random.inner(at),
    }
    if random.below(3) == 0 { changed(random, &new) } else { new }
}

// ---- scores

struct Scale {
    work: Work,
    out: Vec<u8>,
}

impl Scale {
    // The answer, and the least time in microseconds of some calls.
    fn call(&mut self, list: &[u8], calls: usize) -> (Answer, f64) {
        let (mut answer, mut least) = ([0; 6], f64::INFINITY);
        for _ in 0..calls {
            let start = now();
            self.work.simplify(list, &[], LIMIT, &mut self.out, &mut answer);
            least = least.min(now() - start);
        }
        (answer, least * 1e6)
    }

    // The larger the worse for the library; 0 for what the goal does not speak of.
    fn score(&mut self, goal: Goal, nodes: &[Node], calls: usize) -> f64 {
        let (answer, time) = self.call(&listing(nodes), calls);
        match goal {
            Goal::Calls if answer[0] == 0 => answer[2] as f64,
            Goal::Time if answer[0] == 0 => time,
            Goal::Refused if answer[0] != 0 => time,
            _ => 0.0,
        }
    }
}

// ---- the search

// From a listing to a better one, until nothing was gained for long or the time is over.
fn climb(random: &mut Random, scale: &mut Scale, goal: Goal, start: Vec<Node>, end: f64) -> (f64, Vec<Node>) {
    let (mut here, mut score) = (start.clone(), scale.score(goal, &start, 3));
    let (mut best, mut best_score, mut stale) = (start, score, 0);
    while stale < STALE && now() < end {
        let new = changed(random, &here);
        let mut new_score = scale.score(goal, &new, if goal == Goal::Calls { 1 } else { 2 });
        if goal != Goal::Calls && new_score > best_score {
            new_score = scale.score(goal, &new, 9);
        }
        let slack = 0.03 * (random.below(1000) as f64 / 1000.0).powi(3);
        if new_score >= score * (1.0 - slack) {
            (here, score) = (new, new_score);
        }
        stale += 1;
        if score > best_score * 1.0001 {
            (best, best_score, stale) = (here.clone(), score, 0);
        }
    }
    (best_score, best)
}

fn main() {
    let words: Vec<String> = std::env::args().collect();
    let [seconds, folder] = [&words[1], &words[2]];
    let seed = words.get(3).map_or(0xA076_1D64_78BD_642F, |s| s.parse().expect("a seed"));
    let (end, mut random) = (now() + seconds.parse::<f64>().expect("seconds"), Random(seed));
    let mut scale = Scale { work: Work::new(ROOM), out: vec![0; OUT] };
    let file = |goal: Goal| format!("{folder}/{}.list", format!("{goal:?}").to_lowercase());
    let mut best = GOALS.map(|goal| {
        let known = std::fs::read_to_string(file(goal)).map_or_else(|_| random.listing(), |text| nodes(&text));
        (scale.score(goal, &known, 9), known)
    });
    for k in 0.. {
        if now() >= end {
            break;
        }
        let n = k % GOALS.len();
        let again = random.below(3) > 0;
        let from = if random.below(2) == 0 { 0 } else { n };
        let start = if again { best[from].1.clone() } else { random.listing() };
        let (score, nodes) = climb(&mut random, &mut scale, GOALS[n], start, end);
        if score > best[n].0 {
            std::fs::write(file(GOALS[n]), listing(&nodes)).expect("the folder");
            let (answer, time) = scale.call(&listing(&nodes), 9);
            let (goal, lines, [refusal, _, calls, ..]) = (format!("{:?}", GOALS[n]), nodes.len(), answer);
            println!("{goal:<8}{score:>10.0}  {lines:>4} lines, refusal {refusal}, {calls} calls, {time:.0} us alone");
            best[n] = (score, nodes);
        }
    }
}
