// Cases of every shape: the lines of a listing, what its s lines put in, and what a sheet binds.
use crate::random::{Numbers, Random};
use num_complex::Complex64;
use oracle::expression::{ExpressionFunction, InfixOperator, PrefixOperator};
use oracle::nodes::Node;
use std::collections::BTreeSet;

pub mod arms;
pub mod tapes;

pub const FUNCTIONS: [ExpressionFunction; 5] = [
    ExpressionFunction::Sine,
    ExpressionFunction::Cosine,
    ExpressionFunction::Exponent,
    ExpressionFunction::SquareRoot,
    ExpressionFunction::Cis,
];
pub const PREFIXES: [PrefixOperator; 2] = [PrefixOperator::Plus, PrefixOperator::Minus];
pub const INFIXES: [InfixOperator; 5] =
    [InfixOperator::Plus, InfixOperator::Minus, InfixOperator::Star, InfixOperator::Slash, InfixOperator::Caret];

const NUMBERS: [Numbers; 7] =
    [Numbers::Plane, Numbers::Plane, Numbers::Line, Numbers::Wild, Numbers::Wild, Numbers::Few, Numbers::Bits];
const LINES: usize = 1024; // that a listing may have
const DEEPEST: usize = 64;
pub const SHEET_VARIABLES: usize = 256;
pub const SHEET_CELLS: usize = 1024;
const SWAPS: usize = 256;
const LARGE: usize = 4000; // a tree of this size is still quick to evaluate in the Rust

#[derive(Clone, Debug)]
pub struct Case {
    pub nodes: Vec<Node>,
    pub swaps: Vec<(u16, usize)>,
    pub variables: Vec<(u16, Complex64)>,
    pub cells: Vec<(u16, Vec<f64>)>, // of each region, from index 0
}

impl Case {
    // Lines alone.
    pub fn of(nodes: &[Node]) -> Self {
        Self { nodes: nodes.to_vec(), swaps: vec![], variables: vec![], cells: vec![] }
    }

    fn children(&self, line: usize) -> Vec<usize> {
        match self.nodes[line] {
            Node::Function(_, c) | Node::Prefix(_, c) => vec![c],
            Node::Infix(_, l, r) => vec![l, r],
            _ => vec![],
        }
    }

    fn reach(&self, line: usize, met: &mut BTreeSet<usize>) {
        if met.insert(line) {
            self.children(line).into_iter().for_each(|c| self.reach(c, met));
        }
    }

    fn puts_in_bound_variables(&self) -> bool {
        let mut met = BTreeSet::new();
        self.swaps.iter().for_each(|(_, line)| self.reach(*line, &mut met));
        let is_bound = |v: u16| self.swaps.iter().any(|(bound, _)| *bound == v);
        met.iter().any(|line| matches!(self.nodes[*line], Node::Variable(v) if is_bound(v)))
    }

    // What there is about a case that a comparison wants to have met.
    pub fn features(&self) -> Vec<&'static str> {
        let lines = self.nodes.len();
        let (mut depth, mut parents, mut met) = (vec![1; lines], vec![0; lines], BTreeSet::new());
        for line in 0..lines {
            for child in self.children(line) {
                depth[line] = depth[line].max(depth[child] + 1);
                parents[child] += 1;
            }
        }
        self.reach(lines - 1, &mut met);
        let texts: BTreeSet<String> = self.nodes.iter().map(|n| format!("{n:?}")).collect();
        let all = [
            (lines == 1, "listing: one line"),
            (lines > 300, "listing: over 300 lines"),
            (depth[lines - 1] == DEEPEST, "listing: root of depth 64"),
            (parents.iter().any(|n| *n > 1), "listing: a line with two parents"),
            (texts.len() < lines, "listing: equal lines"),
            (met.len() < lines, "listing: lines that the root does not reach"),
            (self.puts_in_bound_variables(), "s lines: what is put in has variables that are replaced elsewhere"),
        ];
        all.into_iter().filter(|(is, _)| *is).map(|(_, name)| name).collect()
    }
}

// How a case is drawn: what its numbers are like, how often a line is a function or a power, and the names in use.
struct Maker<'a> {
    random: &'a mut Random,
    numbers: Numbers,
    functions: usize, // in a hundred
    powers: usize,    // in a hundred
    names: Vec<u16>,
    far: bool, // whether there are cells beyond those that a sheet binds
    shapes: Vec<arms::Shape>,
    nodes: Vec<Node>,
    size: Vec<usize>,
    depth: Vec<usize>,
}

impl<'a> Maker<'a> {
    fn new(random: &'a mut Random) -> Self {
        let numbers = random.pick(&NUMBERS);
        let functions = random.pick(&[0, 10, 25, 25, 60, 90]);
        let powers = random.pick(&[0, 5, 15]);
        let mut names: Vec<u16> = (0..random.from(1, 6)).map(|i| i as u16).collect();
        if random.once_in(3) {
            names.extend([65535, 65534, random.next() as u16, random.next() as u16]);
        }
        let far = random.once_in(8);
        Self {
            random,
            numbers,
            functions,
            powers,
            names,
            far,
            shapes: vec![],
            nodes: vec![],
            size: vec![],
            depth: vec![],
        }
    }

    fn push(&mut self, node: Node) -> usize {
        let below: Vec<usize> = match node {
            Node::Function(_, c) | Node::Prefix(_, c) => vec![c],
            Node::Infix(_, l, r) => vec![l, r],
            _ => vec![],
        };
        self.size.push(below.iter().fold(1usize, |sum, c| sum.saturating_add(self.size[*c])));
        self.depth.push(1 + below.iter().map(|c| self.depth[*c]).max().unwrap_or(0));
        self.nodes.push(node);
        self.nodes.len() - 1
    }

    fn cell(&mut self) -> Node {
        let region = self.random.pick(&self.names);
        let index = match self.random.below(12) {
            0 if self.far => u32::MAX - self.random.below(2) as u32,
            1 if self.far => self.random.next() as u32,
            _ => self.random.below(5) as u32,
        };
        Node::Cell(region, index)
    }

    fn leaf(&mut self) -> usize {
        let node = match self.random.below(10) {
            0 => Node::Pi,
            1..=3 => Node::Variable(self.random.pick(&self.names)),
            4 => self.cell(),
            _ => Node::Number(self.random.complex(self.numbers)),
        };
        self.push(node)
    }

    fn infix_operator(&mut self) -> InfixOperator {
        if self.random.below(100) < self.powers { InfixOperator::Caret } else { self.random.pick(&INFIXES[..4]) }
    }

    fn over(&mut self, left: usize, right: usize) -> usize {
        let node = if self.random.below(100) < self.functions {
            Node::Function(self.random.pick(&FUNCTIONS), left)
        } else if self.random.once_in(6) {
            Node::Prefix(self.random.pick(&PREFIXES), left)
        } else {
            Node::Infix(self.infix_operator(), left, right)
        };
        self.push(node)
    }

    // An earlier line, more often a late one, whose tree leaves room for a parent.
    fn earlier(&mut self) -> usize {
        let n = self.nodes.len();
        for _ in 0..4 {
            let at = if self.random.once_in(2) { n - 1 - self.random.below(n.min(3)) } else { self.random.below(n) };
            if self.depth[at] < DEEPEST && self.size[at] < LARGE {
                return at;
            }
        }
        self.leaf()
    }

    // Any lines: shared, equal and unreachable ones among them.
    fn any(&mut self, lines: usize) {
        self.leaf();
        while self.nodes.len() + 3 < lines {
            match self.random.below(20) {
                0..=6 => drop(self.leaf()),
                7 => {
                    let again = self.random.pick(&self.nodes);
                    self.push(again);
                }
                _ => {
                    let (left, right) = (self.earlier(), self.earlier());
                    self.over(left, right);
                }
            }
        }
        let (left, right) = (self.earlier(), self.earlier());
        self.over(left, right);
    }

    // A chain to some depth: each line has the one before on one side, and a leaf on the other if it has two.
    fn chain(&mut self, depth: usize) {
        let mut top = self.leaf();
        while self.depth[top] < depth {
            let other = self.leaf();
            top = if self.random.once_in(3) {
                let operator = self.infix_operator();
                self.push(Node::Infix(operator, other, top))
            } else {
                self.over(top, other)
            };
        }
    }

    // Leaves, combined two by two until one node is left.
    fn wide(&mut self, leaves: usize) {
        let mut row: Vec<usize> = (0..leaves).map(|_| self.leaf()).collect();
        while row.len() > 1 {
            row = row.chunks(2).map(|pair| self.pair(pair)).collect();
        }
    }

    fn pair(&mut self, pair: &[usize]) -> usize {
        let [left, right] = pair else { return pair[0] };
        let operator = self.infix_operator();
        let node = self.push(Node::Infix(operator, *left, *right));
        if self.random.below(100) < self.functions {
            let function = self.random.pick(&FUNCTIONS);
            return self.push(Node::Function(function, node));
        }
        node
    }

    // Each line has the line before it on both sides.
    fn doubling(&mut self, times: usize) {
        let mut top = self.leaf();
        for _ in 0..times {
            let operator = self.random.pick(&INFIXES[..3]);
            top = self.push(Node::Infix(operator, top, top));
        }
    }

    fn shape(&mut self) {
        match self.random.below(400) {
            0..=29 => drop(self.leaf()),
            30..=219 => {
                let lines = self.random.from(4, 14);
                self.any(lines);
            }
            220..=299 => {
                let lines = self.random.from(14, 60);
                self.any(lines);
            }
            300..=349 => {
                let depth = self.random.pick(&[8, 20, 40, 63, 64, 64]);
                self.chain(depth);
            }
            350..=379 => {
                let leaves = self.random.pick(&[8, 16, 33, 64, 128, 200, 300]);
                self.wide(leaves);
            }
            380..=390 => {
                let times = self.random.pick(&[4, 8, 10, 12]);
                self.doubling(times);
            }
            391 => {
                let times = self.random.pick(&[15, 18, 19, 20, 64]);
                self.doubling(times);
            }
            392..=394 => {
                let depth = self.random.pick(&[65, 66, 80]);
                self.chain(depth);
            }
            395 => self.any(LINES),
            _ => {
                let lines = self.random.from(100, 400);
                self.any(lines);
            }
        }
    }

    fn used_variables(&self) -> BTreeSet<u16> {
        self.nodes.iter().filter_map(|n| if let Node::Variable(v) = n { Some(*v) } else { None }).collect()
    }

    fn used_regions(&self) -> BTreeSet<u16> {
        self.nodes.iter().filter_map(|n| if let Node::Cell(r, _) = n { Some(*r) } else { None }).collect()
    }

    fn is_bound(&mut self, how: usize) -> bool {
        match how {
            0..=6 => true,
            7 | 8 => !self.random.once_in(8),
            _ => self.random.once_in(3),
        }
    }

    fn bound_variables(&mut self, how: usize) -> Vec<(u16, Complex64)> {
        let mut names = self.used_variables();
        names.retain(|_| self.is_bound(how));
        let others = if self.random.once_in(200) { SHEET_VARIABLES } else { self.random.below(3) };
        names.extend((0..others).map(|_| self.random.next() as u16));
        names.into_iter().take(SHEET_VARIABLES).map(|v| (v, self.random.complex(self.numbers))).collect()
    }

    fn bound_cells(&mut self, how: usize) -> Vec<(u16, Vec<f64>)> {
        let mut regions = self.used_regions();
        regions.retain(|_| self.is_bound(how));
        if self.random.once_in(4) {
            regions.insert(self.random.next() as u16);
        }
        let mut left = SHEET_CELLS;
        let mut cells = Vec::new();
        for region in regions {
            let long = if self.random.once_in(300) { LINES } else { self.random.from(if self.far { 3 } else { 5 }, 8) };
            let count = long.min(left);
            left -= count;
            cells.push((region, (0..count).map(|_| self.random.double(self.numbers)).collect()));
        }
        cells
    }

    // The lines, and what a sheet binds.
    fn bound(mut self) -> Case {
        let how = self.random.below(10);
        let (variables, cells) = (self.bound_variables(how), self.bound_cells(how));
        Case { nodes: self.nodes, swaps: vec![], variables, cells }
    }

    // What s lines put in: any line's tree, for variables that occur and for some that do not.
    fn put_in(&mut self) -> Vec<(u16, usize)> {
        let mut names = self.used_variables();
        let how = self.random.below(10);
        names.retain(|_| self.is_bound(how));
        let others = if self.random.once_in(200) { SWAPS } else { self.random.below(3) };
        names.extend((0..others).map(|_| self.random.next() as u16));
        let lines = self.nodes.len();
        names.into_iter().take(SWAPS).map(|v| (v, self.line_put_in(lines))).collect()
    }

    fn line_put_in(&mut self, lines: usize) -> usize {
        if self.random.once_in(4) { lines - 1 } else { self.random.below(lines) }
    }
}

// A case for evaluating.
pub fn to_evaluate(random: &mut Random) -> Case {
    let mut maker = Maker::new(random);
    maker.shape();
    maker.bound()
}

// A case for substituting: variables are more frequent among its leaves.
pub fn to_substitute(random: &mut Random) -> Case {
    let mut maker = Maker::new(random);
    if maker.random.once_in(60) {
        let leaves = maker.random.from(200, 340);
        maker.wide(leaves);
    } else {
        maker.shape();
    }
    let rarely = maker.random.from(2, 4);
    for node in &mut maker.nodes {
        if matches!(node, Node::Number(_) | Node::Cell(..) | Node::Pi) && !maker.random.once_in(rarely) {
            *node = Node::Variable(maker.random.pick(&maker.names));
        }
    }
    let swaps = maker.put_in();
    Case { nodes: maker.nodes, swaps, variables: vec![], cells: vec![] }
}

// A case for to_real: the root is most often a number.
pub fn to_real(random: &mut Random) -> Case {
    let mut maker = Maker::new(random);
    if maker.random.once_in(2) {
        let lines = maker.random.from(4, 10);
        maker.any(lines);
    }
    match maker.random.below(10) {
        0 => drop(maker.push(Node::Pi)),
        1..=7 => {
            let numbers = maker.random.pick(&[Numbers::Plane, Numbers::Wild, Numbers::Bits]);
            let number = Complex64::new(maker.random.double(numbers), maker.random.imaginary());
            maker.push(Node::Number(number));
        }
        _ => maker.shape(),
    }
    Case { nodes: maker.nodes, swaps: vec![], variables: vec![], cells: vec![] }
}
