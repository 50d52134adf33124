// Small trees, taken systematically: all of a size over some leaves, prefixes, functions and operators; and the shapes of
// the arms with all choices for their letters.
use crate::cases::arms::{Shape, shapes};
use crate::cases::{FUNCTIONS, INFIXES, PREFIXES};
use num_complex::Complex64;
use oracle::expression::{ExpressionFunction, InfixOperator, PrefixOperator};
use oracle::nodes::Node;
use std::ops::Range;

const T: f64 = 1e-10;

fn number(x: f64) -> Node {
    Node::Number(Complex64::new(x, 0.0))
}

// Variables, and numbers on and around the tests for zero and one.
fn leaves() -> Vec<Node> {
    let [below, above] = [T.to_bits() - 1, T.to_bits() + 1].map(f64::from_bits);
    let numbers = [0.0, -0.0, 1.0, 2.0, T, below, above, 1.0 + 1e-11, 1.0 - 1e-11, f64::NAN, f64::INFINITY];
    let others = [Node::Variable(0), Node::Variable(1), Node::Pi];
    others.into_iter().chain(numbers.map(number)).collect()
}

struct Forest {
    nodes: Vec<Node>,
    sizes: Vec<Range<usize>>, // where the trees of a size stand, from size 0
    prefixes: Vec<PrefixOperator>,
    functions: Vec<ExpressionFunction>,
}

impl Forest {
    // All trees to a size.
    fn new(leaves: &[Node], prefixes: &[PrefixOperator], functions: &[ExpressionFunction], size: usize) -> Self {
        let mut forest = Self {
            nodes: leaves.to_vec(),
            sizes: vec![0..0, 0..leaves.len()],
            prefixes: prefixes.to_vec(),
            functions: functions.to_vec(),
        };
        for next in 2..=size {
            let start = forest.nodes.len();
            let mut grown = vec![];
            forest.each_above(next, |node| grown.push(node));
            forest.nodes.extend(grown);
            forest.sizes.push(start..forest.nodes.len());
        }
        forest
    }

    // The roots of all trees of a size, the smaller trees standing in the forest.
    fn each_above(&self, size: usize, mut take: impl FnMut(Node)) {
        for child in self.sizes[size - 1].clone() {
            self.prefixes.iter().for_each(|o| take(Node::Prefix(*o, child)));
            self.functions.iter().for_each(|f| take(Node::Function(*f, child)));
        }
        for (left, right) in (1..size - 1).map(|left| (left, size - 1 - left)) {
            for l in self.sizes[left].clone() {
                for r in self.sizes[right].clone() {
                    INFIXES.iter().for_each(|o| take(Node::Infix(*o, l, r)));
                }
            }
        }
    }

    fn lines(&self, node: Node, lines: &mut Vec<Node>) -> usize {
        let node = match node {
            Node::Function(f, c) => Node::Function(f, self.lines(self.nodes[c], lines)),
            Node::Prefix(o, c) => Node::Prefix(o, self.lines(self.nodes[c], lines)),
            Node::Infix(o, l, r) => {
                let (l, r) = (self.lines(self.nodes[l], lines), self.lines(self.nodes[r], lines));
                Node::Infix(o, l, r)
            }
            leaf => leaf,
        };
        lines.push(node);
        lines.len() - 1
    }

    // The listings of all trees of a size, for which those of one less have to stand in the forest.
    fn each(&self, size: usize, mut take: impl FnMut(&[Node])) {
        let mut lines = vec![];
        let mut listed = |node| {
            lines.clear();
            self.lines(node, &mut lines);
            take(&lines);
        };
        match size {
            1 => self.nodes[self.sizes[1].clone()].iter().for_each(|n| listed(*n)),
            _ => self.each_above(size, listed),
        }
    }

    fn shaped(&self, shape: &Shape, of: &dyn Fn(u8) -> usize, lines: &mut Vec<Node>) -> usize {
        let node = match shape {
            Shape::Letter(letter) => return self.lines(self.nodes[of(*letter)], lines),
            Shape::Prefix(o, x) => Node::Prefix(*o, self.shaped(x, of, lines)),
            Shape::Infix(o, x, y) => {
                let (x, y) = (self.shaped(x, of, lines), self.shaped(y, of, lines));
                Node::Infix(*o, x, y)
            }
        };
        lines.push(node);
        lines.len() - 1
    }

    // A shape with each choice of trees of the forest for its letters.
    fn each_of_shape(&self, shape: &Shape, mut take: impl FnMut(&[Node])) {
        let letters = shape.different_letters();
        let count = self.nodes.len();
        for choice in 0..count.pow(letters.len() as u32) {
            let of = |letter: u8| {
                let place = letters.iter().position(|l| *l == letter).expect("a letter of the shape");
                choice / count.pow(place as u32) % count
            };
            let mut lines = vec![];
            self.shaped(shape, &of, &mut lines);
            take(&lines);
        }
    }
}

// Variables and a number, with which trees of three operators are taken.
fn few_leaves() -> Vec<Node> {
    vec![Node::Variable(0), Node::Variable(1), Node::Variable(2), number(2.0)]
}

// What stands for the letters of a shape.
fn for_letters(letters: usize) -> Forest {
    match letters {
        ..=2 => Forest::new(&leaves(), &PREFIXES, &[ExpressionFunction::Cosine], 2),
        3 => Forest::new(&leaves()[..8], &PREFIXES[1..], &[], 2),
        _ => Forest::new(&leaves()[..6], &[], &[], 1),
    }
}

// Prefixes + around what has pi inside: at the limit's end pi may come out of it as it is.
fn around_pi(take: &mut impl FnMut(&'static str, &[Node])) {
    let (pi, a, minus) = (Node::Pi, Node::Variable(0), |c| Node::Prefix(PrefixOperator::Minus, c));
    let quotient = [pi, a, Node::Infix(InfixOperator::Star, 0, 1), Node::Infix(InfixOperator::Slash, 2, 1)];
    let product = [pi, a, Node::Infix(InfixOperator::Slash, 0, 1), Node::Infix(InfixOperator::Star, 2, 1)];
    let sine = [pi, Node::Function(FUNCTIONS[0], 0)];
    let all: [&[Node]; 5] = [&[pi, minus(0)], &[pi, minus(0), minus(1)], &quotient, &product, &sine];
    for inside in all {
        let mut nodes = inside.to_vec();
        for _ in 0..=10 {
            take("prefixes + around pi", &nodes);
            nodes.push(Node::Prefix(PrefixOperator::Plus, nodes.len() - 1));
        }
    }
}

fn shaped(take: &mut impl FnMut(&'static str, &[Node])) {
    for shape in shapes() {
        for_letters(shape.different_letters().len()).each_of_shape(&shape, |nodes| take("what an arm matches", nodes));
    }
}

// All of them, under the name of their kind.
pub fn each(mut take: impl FnMut(&'static str, &[Node])) {
    let all = Forest::new(&leaves(), &PREFIXES, &FUNCTIONS[..2], 4);
    for (size, what) in [(1, "all of size 1"), (2, "all of size 2"), (3, "all of size 3"), (4, "all of size 4")] {
        all.each(size, |nodes| take(what, nodes));
    }
    let some = Forest::new(&leaves()[..8], &PREFIXES[1..], &FUNCTIONS[4..], 4);
    some.each(5, |nodes| take("all of size 5 over 8 leaves, prefix - and cis", nodes));
    let few = Forest::new(&few_leaves(), &[], &[], 6);
    few.each(7, |nodes| take("all of size 7 over 4 leaves, infixes alone", nodes));
    shaped(&mut take);
    around_pi(&mut take);
}
