// Random trees for evaluating and playing: which leaves and operations they have, and how they are built of them.
use super::common::Random;
use oracle::{
    expression::{ExpressionFunction, InfixOperator, PrefixOperator},
    nodes::Node,
};
use std::collections::HashMap;

pub const REGIONS: u16 = 8;

// Which leaves and which operations a tree has, and how it is built of them.
#[derive(Clone, Copy, PartialEq)]
pub enum Shape {
    Free,
    Chain,
    Shared,
}

#[derive(Clone, Copy)]
pub struct Mix {
    pub name: &'static str,
    pub bound: bool, // leaves are numbers, pi, variables and cells, else numbers alone
    pub functions: bool, // sin, cos, exp, sqrt, cis and ^ besides arithmetic
    shape: Shape,
    pub variables: u16,
    pub cells: u32, // of each region
}

pub const FEW: Mix = Mix { name: "arithmetic", bound: true, functions: false, shape: Shape::Free, variables: 32, cells: 16 };
pub const MIXES: [Mix; 6] = [
    FEW,
    Mix { name: "numbers", bound: false, ..FEW },
    Mix { name: "functions", functions: true, ..FEW },
    Mix { name: "chain", shape: Shape::Chain, ..FEW },
    Mix { name: "shared", shape: Shape::Shared, ..FEW },
    Mix { name: "full sheet", variables: 256, cells: 128, ..FEW },
];

// The trees' nodes.
impl Random {
    fn leaf(&mut self, mix: Mix) -> Node {
        match if mix.bound { self.below(10) } else { 0 } {
            0..3 => Node::Number(self.number()),
            3 => Node::Pi,
            4..7 => Node::Variable(self.below(mix.variables.into()) as u16),
            _ => Node::Cell(self.below(REGIONS.into()) as u16, self.below(mix.cells as usize) as u32),
        }
    }

    fn one(&mut self, mix: Mix, a: usize) -> Node {
        use ExpressionFunction::*;
        if mix.functions && self.below(3) > 0 {
            return Node::Function([Sine, Cosine, Exponent, SquareRoot, Cis][self.below(5)], a);
        }
        Node::Prefix(if self.below(4) > 0 { PrefixOperator::Minus } else { PrefixOperator::Plus }, a)
    }

    fn two(&mut self, mix: Mix, a: usize, b: usize) -> Node {
        use InfixOperator::*;
        Node::Infix([Plus, Minus, Star, Slash, Caret][self.below(if mix.functions { 5 } else { 4 })], a, b)
    }
}

// The lines of a tree.
struct Lines<'a> {
    random: &'a mut Random,
    mix: Mix,
    nodes: Vec<Node>,
    of_size: HashMap<usize, Vec<usize>>,
}

impl Lines<'_> {
    fn push(&mut self, size: usize, node: Node) -> usize {
        let line = self.nodes.len();
        self.nodes.push(node);
        self.of_size.entry(size).or_default().push(line);
        line
    }

    // A tree with this many nodes, each counted as often as it is met. A chain has one leaf at each step, up to 50 steps;
    // longer ones are joined. Shared: half of the operands are trees that were there before.
    fn grow(&mut self, size: usize) -> usize {
        if self.mix.shape == Shape::Shared && self.random.below(2) == 0 {
            if let Some(known) = self.of_size.get(&size) {
                return known[self.random.below(known.len())];
            }
        }
        let left = match self.mix.shape {
            Shape::Chain if size <= 101 => size.max(3) - 2,
            Shape::Chain => size / 2,
            _ => 1 + self.random.below(size.max(3) - 2),
        };
        let node = if size == 1 {
            self.random.leaf(self.mix)
        } else if size == 2 || self.mix.shape != Shape::Chain && self.random.below(if self.mix.functions { 3 } else { 6 }) == 0 {
            let a = self.grow(size - 1);
            self.random.one(self.mix, a)
        } else {
            let (a, b) = (self.grow(left), self.grow(size - 1 - left));
            self.random.two(self.mix, a, b)
        };
        self.push(size, node)
    }
}

pub fn grown(random: &mut Random, mix: Mix, size: usize) -> Vec<Node> {
    let mut lines = Lines { random, mix, nodes: Vec::new(), of_size: HashMap::new() };
    lines.grow(size);
    lines.nodes
}
