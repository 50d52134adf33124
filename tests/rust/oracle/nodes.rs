// Expressions from nodes as a listing has them: one shared node for each line.
use crate::expression::{Expression, ExpressionFunction, InfixOperator, PrefixOperator, interned};
use crate::instruction::MemoryReference;
use internment::ArcIntern;
use num_complex::Complex64;
use std::collections::HashMap;

// A line of a listing. Children are numbers of earlier lines.
#[derive(Clone, Copy, Debug)]
pub enum Node {
    Number(Complex64),
    Pi,
    Variable(u16),
    Cell(u16, u32),
    Function(ExpressionFunction, usize),
    Prefix(PrefixOperator, usize),
    Infix(InfixOperator, usize, usize),
}

// The Rust's names for what a listing numbers.
pub fn variable_name(variable: u16) -> String {
    format!("v{variable}")
}

pub fn region_name(region: u16) -> String {
    format!("r{region}")
}

// The number in such a name.
pub fn number_of(name: &str) -> u16 {
    name[1..].parse().expect("a name that was made here")
}

fn leaf(expression: Expression) -> ArcIntern<Expression> {
    ArcIntern::new(expression)
}

fn tree(node: Node, made: &[ArcIntern<Expression>]) -> ArcIntern<Expression> {
    match node {
        Node::Number(z) => interned::number(z),
        Node::Pi => leaf(Expression::PiConstant()),
        Node::Variable(v) => leaf(Expression::Variable(variable_name(v))),
        Node::Cell(r, i) => leaf(Expression::Address(MemoryReference { name: region_name(r), index: i.into() })),
        Node::Function(f, c) => interned::function_call(f, made[c].clone()),
        Node::Prefix(o, c) => interned::prefix(o, made[c].clone()),
        Node::Infix(o, l, r) => interned::infix(made[l].clone(), o, made[r].clone()),
    }
}

// The tree of each line.
pub fn trees(nodes: &[Node]) -> Vec<ArcIntern<Expression>> {
    let mut made = Vec::with_capacity(nodes.len());
    for node in nodes {
        let next = tree(*node, &made);
        made.push(next);
    }
    made
}

// The same where equal nodes are made one, as interning may do: the first of them stands for all, zeros of either sign
// and NaNs among them.
pub fn interned_trees(nodes: &[Node]) -> Vec<ArcIntern<Expression>> {
    let mut known: HashMap<ArcIntern<Expression>, ArcIntern<Expression>> = HashMap::new();
    let mut made = Vec::with_capacity(nodes.len());
    for node in nodes {
        let next = tree(*node, &made);
        made.push(known.entry(next.clone()).or_insert(next).clone());
    }
    made
}
