// What the benchmarks that use the Rust's own module share: random numbers, texts of trees and rows, times.
#![allow(dead_code)] // what only some of them use
use num_complex::Complex64;
use oracle::{
    expression::{ExpressionFunction, InfixOperator, PrefixOperator},
    nodes::Node,
    trace::Asked,
};
use std::fmt::Write;

pub mod lent;
pub mod packed;

unsafe extern "C" {
    safe fn clock_gettime(clock: i32, seconds_and_nanoseconds: &mut [i64; 2]) -> i32;
}

// Marsaglia's xorshift of 64 bits.
pub struct Random(pub u64);

impl Random {
    pub fn next(&mut self) -> u64 {
        self.0 ^= self.0 << 13;
        self.0 ^= self.0 >> 7;
        self.0 ^= self.0 << 17;
        self.0
    }

    pub fn below(&mut self, n: usize) -> usize {
        ((self.next() >> 11) % n as u64) as usize
    }

    // From a half to 2.
    pub fn real(&mut self) -> f64 {
        0.5 + 1.5 * (self.below(1 << 52) as f64 / (1u64 << 52) as f64)
    }

    pub fn number(&mut self) -> Complex64 {
        Complex64::new(self.real(), self.real())
    }
}

// ---- texts

pub fn line(node: &Node) -> String {
    match node {
        Node::Number(z) => format!("n\t{:016X}\t{:016X}\n", z.re.to_bits(), z.im.to_bits()),
        Node::Pi => "p\n".into(),
        Node::Variable(v) => format!("v\t{v}\n"),
        Node::Cell(r, i) => format!("m\t{r}\t{i}\n"),
        Node::Function(f, a) => format!("f\t{f}\t{a}\n"),
        Node::Prefix(o, a) => format!("u\t{o}\t{a}\n"),
        Node::Infix(o, a, b) => format!("b\t{o}\t{a}\t{b}\n"),
    }
}

pub fn listing(nodes: &[Node]) -> Vec<u8> {
    nodes.iter().map(line).collect::<String>().into_bytes()
}

// The lines of a listing that is right.
pub fn nodes(text: &str) -> Vec<Node> {
    use ExpressionFunction::*;
    use InfixOperator::{Caret, Minus, Plus, Slash, Star};
    let node = |line: &str| {
        let fields: Vec<&str> = line.split('\t').collect();
        let whole = |k: usize| fields[k].parse::<usize>().unwrap();
        let real = |k: usize| f64::from_bits(u64::from_str_radix(fields[k], 16).unwrap());
        let function = |name: &str| [Sine, Cosine, Exponent, SquareRoot, Cis].into_iter().find(|f| f.to_string() == name).unwrap();
        let infix = |sign: &str| [Plus, Minus, Star, Slash, Caret].into_iter().find(|o| o.to_string() == sign).unwrap();
        match fields[0] {
            "n" => Node::Number(Complex64::new(real(1), real(2))),
            "p" => Node::Pi,
            "v" => Node::Variable(whole(1) as u16),
            "m" => Node::Cell(whole(1) as u16, whole(2) as u32),
            "f" => Node::Function(function(fields[1]), whole(2)),
            "u" => Node::Prefix(if fields[1] == "-" { PrefixOperator::Minus } else { PrefixOperator::Plus }, whole(2)),
            _ => Node::Infix(infix(fields[1]), whole(2), whole(3)),
        }
    };
    text.lines().map(node).collect()
}

// The t lines of what was asked for, with num_complex's values.
pub fn rows(asked: &[Asked]) -> String {
    let mut text = String::new();
    for a in asked {
        let name = ["sin", "cos", "exp", "sqrt", "pow"][a.operation as usize - 1];
        let (operands, z) = (a.operands.map(|x| format!("{x:016X}")).join("\t"), a.value());
        writeln!(text, "t\t{name}\t{operands}\t{:016X}\t{:016X}", z.re.to_bits(), z.im.to_bits()).unwrap();
    }
    text
}

// ---- times

// This thread's processor time in seconds: Linux's CLOCK_THREAD_CPUTIME_ID.
pub fn now() -> f64 {
    let mut t = [0, 0];
    assert_eq!(clock_gettime(3, &mut t), 0);
    t[0] as f64 + t[1] as f64 * 1e-9
}

pub fn quartiles(x: impl Iterator<Item = f64>) -> [f64; 3] {
    let mut sorted: Vec<f64> = x.collect();
    sorted.sort_by(f64::total_cmp);
    [1, 2, 3].map(|q| sorted[(sorted.len() - 1) * q / 4])
}
