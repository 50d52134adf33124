// Cases for simplifying: trees made of the left sides of the arms, one within another, over numbers on and around the
// zero and one tests; lines that are shared, equal, or equal but for the sign of a zero.
use super::{Case, DEEPEST, FUNCTIONS, INFIXES, Maker, PREFIXES};
use crate::random::{Numbers, Random};
use crate::store::{LINES, with_children};
use num_complex::Complex64;
use oracle::expression::{InfixOperator, PrefixOperator};
use oracle::nodes::Node;
use std::collections::HashMap;

// What the arms match: letters stand for any tree, a letter that comes twice for equal ones.
#[rustfmt::skip]
pub const SHAPES: [&str; 52] = [
    "(a+b)", "(a-b)", "(a*b)", "(a/b)", "(a^b)", "(a-a)", "(a/a)", "(a+a)", "(a*a)", "(a^a)",
    "(a+-b)", "(-a+b)", "(a--b)", "(-a-b)", "(-a*-b)", "(-a/-b)", "(a/-a)", "(-a/a)", "(a*-b)", "(a/-b)", "(-a*b)", "(-a/b)",
    "(((p*q)+b)+((p*r)+c))", "(((p*q)+b)+((r*p)+c))", "(((q*p)+b)+((p*r)+c))", "(((q*p)+b)+((r*p)+c))",
    "((a*x)+(b*x))", "((x+a)+(x+b))",
    "(a+(b+c))", "(a*(b*c))", "(a-(b-c))", "(a/(b/c))", "((a+b)+c)", "((a*b)*c)", "((a-b)-c)", "((a/b)/c)",
    "(a*(b+c))", "((a+b)*c)",
    "((s*o)/s)", "((o*s)/s)", "(a/(a*b))", "(a/(b*a))", "((a*b)/c)", "(a/(b*c))", "((a/b)*b)", "(a*(b/a))",
    "-a", "--a", "+a", "(a+(b-a))", "((a-b)-b)", "(a*(a/b))",
];
// Those that may become larger and deeper on the way.
const GROWING: [&str; 2] = ["(a*(b+c))", "((a+b)*c)"];
#[rustfmt::skip]
const DEEPENING: [&str; 12] = [
    "(a*-b)", "(a/-b)", "(-a*b)", "(-a/b)", "(a+(b+c))", "(a*(b*c))", "(a-(b-c))", "((a+b)+c)", "((a-b)-c)", "(a*(b+c))",
    "((a*b)/c)", "(a/(b*c))",
];
const LARGEST: usize = 500;

// A shape as a tree. A letter has its place in the alphabet.
#[derive(Clone, Debug)]
pub enum Shape {
    Letter(u8),
    Prefix(PrefixOperator, Box<Shape>),
    Infix(InfixOperator, Box<Shape>, Box<Shape>),
}

fn infix_of(sign: u8) -> InfixOperator {
    INFIXES[b"+-*/^".iter().position(|s| *s == sign).expect("an operator")]
}

fn parse(text: &mut std::slice::Iter<u8>) -> Shape {
    match *text.next().expect("a shape") {
        b'(' => {
            let left = parse(text);
            let operator = infix_of(*text.next().expect("an operator"));
            let right = parse(text);
            assert_eq!(text.next(), Some(&b')'));
            Shape::Infix(operator, Box::new(left), Box::new(right))
        }
        b'+' => Shape::Prefix(PrefixOperator::Plus, Box::new(parse(text))),
        b'-' => Shape::Prefix(PrefixOperator::Minus, Box::new(parse(text))),
        letter => Shape::Letter(letter),
    }
}

fn parsed(texts: &[&str]) -> Vec<Shape> {
    texts.iter().map(|text| parse(&mut text.as_bytes().iter())).collect()
}

pub fn shapes() -> Vec<Shape> {
    parsed(&SHAPES)
}

impl Shape {
    // The letters, each as often as it occurs.
    pub fn letters(&self) -> Vec<u8> {
        match self {
            Shape::Letter(letter) => vec![*letter],
            Shape::Prefix(_, x) => x.letters(),
            Shape::Infix(_, x, y) => [x.letters(), y.letters()].concat(),
        }
    }

    // How many nodes stand above a letter, where they are most.
    fn above(&self, wanted: u8) -> Option<usize> {
        match self {
            Shape::Letter(letter) => (*letter == wanted).then_some(0),
            Shape::Prefix(_, x) => x.above(wanted).map(|n| n + 1),
            Shape::Infix(_, x, y) => x.above(wanted).max(y.above(wanted)).map(|n| n + 1),
        }
    }

    pub fn different_letters(&self) -> Vec<u8> {
        let mut letters = self.letters();
        letters.sort_unstable();
        letters.dedup();
        letters
    }
}

fn other_zero(x: f64) -> f64 {
    if x == 0.0 { -x } else { x }
}

impl Maker<'_> {
    // The lines of a tree again, as lines of their own; with zeros of the other sign if that is wanted.
    fn copy(&mut self, line: usize, other_zeros: bool) -> usize {
        let node = match self.nodes[line] {
            Node::Function(f, c) => Node::Function(f, self.copy(c, other_zeros)),
            Node::Prefix(o, c) => Node::Prefix(o, self.copy(c, other_zeros)),
            Node::Infix(o, l, r) => {
                let (l, r) = (self.copy(l, other_zeros), self.copy(r, other_zeros));
                Node::Infix(o, l, r)
            }
            Node::Number(z) if other_zeros => Node::Number(Complex64::new(other_zero(z.re), other_zero(z.im))),
            leaf => leaf,
        };
        self.push(node)
    }

    fn equal_line(&mut self, line: usize) -> usize {
        match self.random.below(4) {
            0 => self.copy(line, false),
            1 => self.copy(line, true),
            _ => line,
        }
    }

    fn shaped(&mut self, shape: &Shape, each: usize, known: &mut HashMap<u8, usize>) -> usize {
        match shape {
            Shape::Letter(letter) => match known.get(letter) {
                Some(line) => self.equal_line(*line),
                None => {
                    let line = self.grown(each);
                    known.insert(*letter, line);
                    line
                }
            },
            Shape::Prefix(o, x) => {
                let x = self.shaped(x, each, known);
                self.push(Node::Prefix(*o, x))
            }
            Shape::Infix(o, x, y) => {
                let (x, y) = (self.shaped(x, each, known), self.shaped(y, each, known));
                self.push(Node::Infix(*o, x, y))
            }
        }
    }

    // A tree of about this size.
    fn grown(&mut self, size: usize) -> usize {
        if size <= 1 {
            return self.leaf();
        }
        match self.random.below(100) {
            n if n < self.functions => {
                let (function, x) = (self.random.pick(&FUNCTIONS), self.grown(size - 1));
                self.push(Node::Function(function, x))
            }
            n if n < self.functions + 5 => {
                let (prefix, x) = (self.random.pick(&PREFIXES), self.grown(size - 1));
                self.push(Node::Prefix(prefix, x))
            }
            _ => {
                let shape = self.any_shape();
                let each = (size - 1) / shape.letters().len();
                self.shaped(&shape, each, &mut HashMap::new())
            }
        }
    }

    fn wrapped(&mut self, line: usize, times: usize) -> usize {
        (0..times).fold(line, |line, _| {
            let prefix = self.random.pick(&PREFIXES);
            self.push(Node::Prefix(prefix, line))
        })
    }

    fn grow(&mut self) {
        if self.random.once_in(12) {
            let leaves = self.random.from(8, LARGEST / 2);
            return self.wide(leaves);
        }
        let size = match self.random.below(20) {
            0..=9 => self.random.from(1, 12),
            10..=15 => self.random.from(12, 40),
            16..=18 => self.random.from(40, 150),
            _ => self.random.from(150, 450),
        };
        let line = self.grown(size);
        if self.random.once_in(20) {
            let times = self.random.below(12);
            self.wrapped(line, times);
        }
    }
}

// Cases on the way to the refusals 2, 6 and 7.
impl Maker<'_> {
    fn infix(&mut self, operator: InfixOperator, left: usize, right: usize) -> usize {
        self.push(Node::Infix(operator, left, right))
    }

    // Lines that have more lines when they are simplified: two sums that stay, and whose sum becomes another one.
    fn group(&mut self, number: usize) -> usize {
        let [x, a, b] = [0, 1, 2].map(|i| self.push(Node::Variable((3 * number + i) as u16)));
        let (xa, xb) = (self.infix(InfixOperator::Plus, x, a), self.infix(InfixOperator::Plus, x, b));
        let (power, sum) = (self.infix(InfixOperator::Caret, xa, xb), self.infix(InfixOperator::Plus, xa, xb));
        self.infix(InfixOperator::Caret, power, sum)
    }

    fn long(&mut self) {
        let count = self.random.from(88, 113);
        let mut row: Vec<usize> = (0..count).map(|i| self.group(i)).collect();
        while row.len() > 1 {
            row = row.chunks(2).map(|pair| self.power(pair)).collect();
        }
        if self.random.once_in(2) {
            self.push(Node::Prefix(PrefixOperator::Minus, row[0]));
        }
    }

    fn power(&mut self, pair: &[usize]) -> usize {
        if let [left, right] = pair { self.infix(InfixOperator::Caret, *left, *right) } else { pair[0] }
    }

    fn variable(&mut self) -> usize {
        let name = self.random.pick(&self.names);
        self.push(Node::Variable(name))
    }

    fn any_shape(&mut self) -> Shape {
        self.shapes[self.random.below(self.shapes.len())].clone()
    }

    // The line, or a prefix + above it: where that goes away, what an arm stores first is a new node.
    fn with_plus(&mut self, line: usize, is_wanted: bool) -> usize {
        if is_wanted { self.push(Node::Prefix(PrefixOperator::Plus, line)) } else { line }
    }

    fn shape_of(&mut self, shape: &Shape, known: &HashMap<u8, usize>) -> usize {
        let node = match shape {
            Shape::Letter(letter) => return known[letter],
            Shape::Prefix(o, x) => Node::Prefix(*o, self.shape_of(x, known)),
            Shape::Infix(o, x, y) => {
                let (x, y) = (self.shape_of(x, known), self.shape_of(y, known));
                Node::Infix(*o, x, y)
            }
        };
        self.push(node)
    }

    // Trees of a size that an arm may bring above a million.
    fn big(&mut self) {
        let mut trees = vec![self.variable()];
        for _ in 0..self.random.from(17, 18) {
            let operator = self.random.pick(&[InfixOperator::Caret, InfixOperator::Caret, InfixOperator::Star]);
            let last = trees[trees.len() - 1];
            trees.push(self.infix(operator, last, last));
        }
        let (shape, mut known) = (self.any_shape(), HashMap::new());
        for letter in shape.different_letters() {
            let is_big = self.random.once_in(2);
            let line = if is_big { trees[trees.len() - self.random.from(1, 3)] } else { self.variable() };
            let plus = self.random.once_in(3);
            known.insert(letter, self.with_plus(line, plus));
        }
        self.shape_of(&shape, &known);
    }

    fn chain_of_functions(&mut self, depth: usize) {
        let mut top = self.variable();
        while self.depth[top] < depth {
            let function = self.random.pick(&FUNCTIONS);
            top = self.push(Node::Function(function, top));
        }
    }

    // A tree of about the depth 64, which an arm may bring above that.
    fn deep(&mut self) {
        let shape = self.any_shape();
        let letters = shape.different_letters();
        let (deep, plus) = (self.random.pick(&letters), self.random.pick(&letters));
        let above = shape.above(deep).expect("a letter of the shape") + usize::from(plus == deep);
        let depth = DEEPEST - above + self.random.pick(&[0, 0, 0, 0, 1]);
        if self.random.once_in(3) {
            self.chain(depth)
        } else {
            self.chain_of_functions(depth)
        }
        let top = self.nodes.len() - 1;
        let mut known = HashMap::new();
        for letter in letters {
            let line = if letter == deep { top } else { self.variable() };
            known.insert(letter, self.with_plus(line, letter == plus));
        }
        self.shape_of(&shape, &known);
    }
}

// A case that may be refused by 2, 6 or 7 with all the memory there can be.
pub fn to_refuse(random: &mut Random) -> Case {
    let mut maker = Maker::new(random);
    let what = maker.random.below(5);
    let aimed = if what < 3 { parsed(&GROWING) } else { parsed(&DEEPENING) };
    maker.shapes = if maker.random.once_in(4) { shapes() } else { aimed };
    match what {
        0 => maker.long(),
        1 | 2 => maker.big(),
        _ => maker.deep(),
    }
    Case { nodes: maker.nodes, swaps: vec![], variables: vec![], cells: vec![] }
}

// The same with powers of variables in place of some variables, but for the first line; the exponents are functions of numbers, so that
// rows are used before it is refused.
pub fn with_functions(random: &mut Random, case: &Case) -> Case {
    let (mut nodes, mut at) = (vec![], vec![]);
    for (line, node) in case.nodes.iter().enumerate() {
        nodes.push(with_children(*node, |c| at[c]));
        let (base, has_room) = (nodes.len() - 1, nodes.len() + 3 + case.nodes.len() - line <= LINES);
        if matches!(node, Node::Variable(_)) && line > 0 && has_room && random.once_in(2) {
            nodes.push(Node::Number(random.complex(Numbers::Plane)));
            nodes.push(Node::Function(random.pick(&FUNCTIONS), base + 1));
            nodes.push(Node::Infix(InfixOperator::Caret, base, base + 2));
        }
        at.push(nodes.len() - 1);
    }
    Case::of(&nodes)
}

// A case for simplifying, of a size of at most 500.
pub fn to_simplify(random: &mut Random) -> Case {
    loop {
        let mut maker = Maker::new(random);
        maker.shapes = shapes();
        if !maker.random.once_in(4) {
            maker.numbers = maker.random.pick(&[Numbers::Border, Numbers::Border, Numbers::Few, Numbers::Line]);
            maker.functions = maker.random.pick(&[0, 0, 3, 10]);
        }
        if maker.random.once_in(5) {
            maker.names = (0..200).collect();
        }
        maker.grow();
        if maker.size[maker.nodes.len() - 1] <= LARGEST {
            return Case { nodes: maker.nodes, swaps: vec![], variables: vec![], cells: vec![] };
        }
    }
}
