// The store of the rules, as plainly as can be: how many nodes a listing and its substitution need, what is refused, and
// which nodes are equal.
use num_complex::Complex64;
use oracle::nodes::Node;
use oracle::trace::bits;
use std::collections::{HashMap, HashSet};

const LARGEST: u64 = 1_000_000;
const DEEPEST: u64 = 64;
pub const LINES: usize = 1024;
pub const MOST: usize = 4096;
pub const BIG: u64 = 6;
pub const DEEP: u64 = 7;
pub const ROOM: u64 = 8;
pub const LONG_LIST: u64 = 2;

// A node's kind with its operator, and its fields; children are numbers of stored nodes.
type Key = (u64, u64, u64);

pub struct Store {
    limits: Limits,
    known: HashMap<Key, usize>,
    classes: HashMap<Key, usize>, // the first of the nodes that are equal
    nodes: Vec<Node>,
    class: Vec<usize>,
    size: Vec<u64>,
    depth: Vec<u64>,
}

struct Limits {
    capacity: usize,
    size: u64,
    depth: u64,
}

fn key(node: Node) -> Key {
    match node {
        Node::Number(z) => (0, bits(z.re), bits(z.im)),
        Node::Pi => (1, 0, 0),
        Node::Variable(v) => (2, v.into(), 0),
        Node::Cell(r, i) => (3, r.into(), i.into()),
        Node::Function(f, c) => (10 + f as u64, c as u64, 0),
        Node::Prefix(o, c) => (20 + o as u64, c as u64, 0),
        Node::Infix(o, l, r) => (30 + o as u64, l as u64, r as u64),
    }
}

// A double whose bits are those of all doubles equal to it.
fn of_class(x: f64) -> f64 {
    if x == 0.0 { 0.0 } else { x }
}

fn with_one_nan(node: Node) -> Node {
    match node {
        Node::Number(z) => Node::Number(Complex64::new(f64::from_bits(bits(z.re)), f64::from_bits(bits(z.im)))),
        other => other,
    }
}

fn with_one_zero(node: Node) -> Node {
    match node {
        Node::Number(z) => Node::Number(Complex64::new(of_class(z.re), of_class(z.im))),
        other => other,
    }
}

pub fn children(node: Node) -> Vec<usize> {
    match node {
        Node::Function(_, c) | Node::Prefix(_, c) => vec![c],
        Node::Infix(_, l, r) => vec![l, r],
        _ => vec![],
    }
}

pub fn with_children(node: Node, of: impl Fn(usize) -> usize) -> Node {
    match node {
        Node::Function(f, c) => Node::Function(f, of(c)),
        Node::Prefix(o, c) => Node::Prefix(o, of(c)),
        Node::Infix(o, l, r) => Node::Infix(o, of(l), of(r)),
        leaf => leaf,
    }
}

impl Store {
    pub fn new(capacity: usize) -> Self {
        Self::within(Limits { capacity: capacity.min(MOST), size: LARGEST, depth: DEEPEST })
    }

    // One that refuses nothing, as the Rust does.
    pub fn unlimited() -> Self {
        Self::within(Limits { capacity: usize::MAX, size: u64::MAX, depth: u64::MAX })
    }

    fn within(limits: Limits) -> Self {
        let (known, classes) = (HashMap::new(), HashMap::new());
        Self { limits, known, classes, nodes: vec![], class: vec![], size: vec![], depth: vec![] }
    }

    pub fn len(&self) -> usize {
        self.nodes.len()
    }

    pub fn node(&self, at: usize) -> Node {
        self.nodes[at]
    }

    pub fn size(&self, at: usize) -> u64 {
        self.size[at]
    }

    // One number for all nodes that are equal to this one.
    pub fn class(&self, at: usize) -> usize {
        self.class[at]
    }

    pub fn add(&mut self, node: Node) -> Result<usize, u64> {
        let node = with_one_nan(node);
        if let Some(at) = self.known.get(&key(node)) {
            return Ok(*at);
        }
        let below = children(node);
        let size = below.iter().fold(1u64, |sum, c| sum.saturating_add(self.size[*c]));
        let depth = 1 + below.iter().map(|c| self.depth[*c]).max().unwrap_or(0);
        if size > self.limits.size {
            return Err(BIG);
        }
        if depth > self.limits.depth {
            return Err(DEEP);
        }
        if self.len() == self.limits.capacity {
            return Err(ROOM);
        }
        let class = key(with_children(with_one_zero(node), |c| self.class[c]));
        self.class.push(*self.classes.entry(class).or_insert(self.nodes.len()));
        self.known.insert(key(node), self.len());
        self.nodes.push(node);
        self.size.push(size);
        self.depth.push(depth);
        Ok(self.len() - 1)
    }

    // The stored node of each line.
    pub fn read(&mut self, lines: &[Node]) -> Result<Vec<usize>, u64> {
        let mut at = Vec::new();
        for line in lines {
            let node = with_children(*line, |c| at[c]);
            at.push(self.add(node)?);
        }
        Ok(at)
    }

    fn replaced(
        &mut self,
        at: usize,
        by: &HashMap<u16, usize>,
        done: &mut HashMap<usize, usize>,
    ) -> Result<usize, u64> {
        if let Some(result) = done.get(&at) {
            return Ok(*result);
        }
        let node = self.nodes[at];
        let result = match node {
            Node::Variable(v) => by.get(&v).copied().unwrap_or(at),
            node => {
                for child in children(node) {
                    self.replaced(child, by, done)?;
                }
                self.add(with_children(node, |c| done[&c]))?
            }
        };
        done.insert(at, result);
        Ok(result)
    }

    fn reached(&self, at: usize, met: &mut HashSet<usize>) {
        if met.insert(at) {
            children(self.nodes[at]).into_iter().for_each(|c| self.reached(c, met));
        }
    }

    // Refuses what substituting refuses before it writes.
    pub fn substitute(&mut self, lines: &[usize], swaps: &[(u16, usize)]) -> Result<(), u64> {
        let by = swaps.iter().map(|(v, line)| (*v, lines[*line])).collect();
        let root = lines[lines.len() - 1];
        let result = self.replaced(root, &by, &mut HashMap::new())?;
        let mut met = HashSet::new();
        self.reached(result, &mut met);
        if met.len() > LINES { Err(LONG_LIST) } else { Ok(()) }
    }
}
