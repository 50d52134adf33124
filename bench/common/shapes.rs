// Random trees for simplifying: which leaves and operations they have, and how they are built of them.
use super::common::Random;
use oracle::{
    expression::{ExpressionFunction, InfixOperator, PrefixOperator},
    nodes::Node,
};

#[derive(Clone, Copy, Debug, PartialEq)]
pub enum Shape {
    Sums,
    Chain,
    Random,
    Shared,
}

pub const SHAPES: [Shape; 4] = [Shape::Sums, Shape::Chain, Shape::Random, Shape::Shared];

impl Shape {
    pub fn name(self) -> &'static str {
        match self {
            Shape::Sums => "sums of products",
            Shape::Chain => "chain",
            Shape::Random => "random",
            Shape::Shared => "shared",
        }
    }
}

fn leaf(random: &mut Random) -> Node {
    match random.below(10) {
        0..3 => Node::Number(random.number()),
        3 => Node::Pi,
        4..8 => Node::Variable(random.below(32) as u16),
        _ => Node::Cell(random.below(8) as u16, random.below(16) as u32),
    }
}

fn infix(random: &mut Random, a: usize, b: usize, operators: &[InfixOperator]) -> Node {
    Node::Infix(operators[random.below(operators.len())], a, b)
}

// Half of the random trees' operations on one operand are functions.
fn one(random: &mut Random, shape: Shape, a: usize) -> Node {
    use ExpressionFunction::*;
    if shape == Shape::Random && random.below(2) == 0 {
        return Node::Function([Sine, Cosine, Exponent, SquareRoot, Cis][random.below(5)], a);
    }
    Node::Prefix(if random.below(4) > 0 { PrefixOperator::Minus } else { PrefixOperator::Plus }, a)
}

// The lines of a tree with this many nodes, each counted as often as it is met.
// Sums: a balanced sum of products of two leaves. Chain: a leaf at each step, up to 50 steps; longer ones are joined.
// Random: parts of any size. Shared: both operands are one node.
pub fn grow(random: &mut Random, shape: Shape, size: usize, nodes: &mut Vec<Node>) -> usize {
    use InfixOperator::*;
    let is_even = size % 2 == 0;
    let node = if size == 1 {
        leaf(random)
    } else if size == 2 || shape == Shape::Shared && is_even || shape == Shape::Random && random.below(4) == 0 {
        let a = grow(random, shape, size - 1, nodes);
        one(random, shape, a)
    } else if shape == Shape::Shared {
        let a = grow(random, shape, size / 2, nodes);
        infix(random, a, a, &[Plus, Star])
    } else {
        let left = match shape {
            Shape::Sums if size == 3 => 1,
            Shape::Sums => (size - 1) / 2 / 4 * 4 + 3,
            Shape::Chain if size <= 101 => size - 2,
            Shape::Chain => size / 2,
            _ => 1 + random.below(size - 2),
        }
        .min(size - 2);
        let (a, b) = (grow(random, shape, left, nodes), grow(random, shape, size - 1 - left, nodes));
        match shape {
            Shape::Sums if size == 3 => Node::Infix(Star, a, b),
            Shape::Sums => Node::Infix(Plus, a, b),
            Shape::Chain => infix(random, a, b, &[Plus, Minus, Star, Slash]),
            _ => infix(random, a, b, &[Plus, Minus, Star, Slash, Caret]),
        }
    };
    nodes.push(node);
    nodes.len() - 1
}

pub fn drawn(random: &mut Random, shape: Shape, size: usize) -> Vec<Node> {
    let mut nodes = Vec::new();
    grow(random, shape, size, &mut nodes);
    nodes
}
