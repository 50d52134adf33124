// Inputs that collide in the library's index. `bucket` and `row_bucket` are copies of the library's own: when those change these are
// to be changed with them, and `worst` says so when it sees that what should collide does not.
use super::common::Random;
use num_complex::Complex64;
use oracle::{
    expression::InfixOperator::*,
    nodes::Node,
    trace::Asked,
};
use std::collections::HashSet;

const PLACES: u64 = 4096; // of the store
const MULTIPLIER: u64 = 1013904223; // of the first word's low half, in the hash that the library had at first

// A node as its key has it: the code, and two words.
type Key = [u64; 3];

fn low(word: u64) -> u64 {
    word % (1 << 32)
}

// A product that no word makes vanish, of crates/store/src/hash.rt.
fn product(x: u64, y: u64) -> u64 {
    (low(x) + 1) * (y % (1 << 31) + (1 << 31))
}

// A copy of `bucket_of` of crates/store/src/index.rt with `hash_of` of hash.rt there.
fn bucket([code, first, second]: Key) -> u64 {
    let (p, q) = (
        product(low(first) + 1013904223, (first >> 32) + code % 64 * 640531527),
        product(low(second) + 747796405, (second >> 32) + 829304459),
    );
    let x = low((p >> 32) + low(q)) + low(low(first) + (first >> 32));
    let y = low(low(p) + (q >> 32)) + low(low(second) + (second >> 32));
    let r = product(x, y);
    (low((r >> 32) + low(r)) * PLACES) >> 31
}

// A copy of `bucket_of` of crates/sheet/src/index.rt.
pub fn row_bucket(asked: Asked) -> u64 {
    let by = [1779033703, 1013904243, 1359893119, 528734635];
    let spread = |hash: u64, (word, by): (u64, u64)| {
        let p = (low(low(word) + hash) + 1) * (((word >> 32) + by) % (1 << 31) + (1 << 31));
        (p >> 32) + low(p)
    };
    let hash = asked.operands.into_iter().zip(by).fold(asked.operation as u64 * 668265263, spread);
    low(low(hash) * 2246822519) >> 24
}

fn number_key(z: Complex64) -> Key {
    [1, z.re.to_bits(), z.im.to_bits()]
}

// Numbers of one bucket, which is that of the first one.
fn like(first: Complex64, random: &mut Random, count: usize) -> Vec<Node> {
    let (mut numbers, wanted) = (vec![first], bucket(number_key(first)));
    while numbers.len() < count {
        let z = random.number();
        if bucket(number_key(z)) == wanted {
            numbers.push(z);
        }
    }
    numbers.into_iter().map(Node::Number).collect()
}

pub fn numbers(random: &mut Random, count: usize) -> Vec<Node> {
    let first = random.number();
    like(first, random, count)
}

// The first is a whole number, as 0 and 2, which simplifying looks up again and again.
pub fn whole(random: &mut Random, first: u8, count: usize) -> Vec<Node> {
    like(Complex64::new(first.into(), 0.0), random, count)
}

// A listing after lines that it does not use.
pub fn after(before: &[Node], nodes: &[Node]) -> Vec<Node> {
    let shift = before.len();
    let shifted = nodes.iter().map(|node| match *node {
        Node::Function(f, a) => Node::Function(f, a + shift),
        Node::Prefix(o, a) => Node::Prefix(o, a + shift),
        Node::Infix(o, a, b) => Node::Infix(o, a + shift, b + shift),
        leaf => leaf,
    });
    before.iter().copied().chain(shifted).collect()
}

// Numbers that collided under the hash that the library had at first. It was linear, so that they are computed and need not be sought:
// their first words differ by multiples of the multiplier's inverse, and the hashes are a row of neighbours.
pub fn linear_numbers(count: usize) -> Vec<Node> {
    let inverse = (0..5).fold(1u64, |x, _| x.wrapping_mul(2u64.wrapping_sub(MULTIPLIER.wrapping_mul(x)))) % (1 << 32);
    let number = |k: u64| Complex64::new(f64::from_bits((0x3FF << 52) + inverse * k % (1 << 32)), 0.0);
    (0..count as u64).map(|k| Node::Number(number(k))).collect()
}

// Leaves and operations over them, all operations of four buckets: for one there are too few pairs of lines. No node is there twice,
// so that a line is a node.
pub fn operations(random: &mut Random, leaves: usize, count: usize) -> Vec<Node> {
    let mut nodes: Vec<Node> = (0..leaves).map(|v| Node::Variable(v as u16)).collect();
    let (mut depths, mut known, mut wanted) = (vec![1; leaves], HashSet::new(), None);
    while nodes.len() < count {
        let (o, a, b) = (random.below(5), random.below(nodes.len()), random.below(nodes.len()));
        let (depth, key) = (1 + depths[a].max(depths[b]), [7 + 8 * (o as u64 + 1), a as u64, b as u64]);
        let four = bucket(key) / 4;
        if depth <= 16 && four == *wanted.get_or_insert(four) && known.insert(key) {
            nodes.push(Node::Infix([Plus, Minus, Star, Slash, Caret][o], a, b));
            depths.push(depth);
        }
    }
    nodes
}
