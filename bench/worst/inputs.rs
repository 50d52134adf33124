// What `worst` calls the library with: listings with sheets that are to take long.
use super::{
    common::{Random, listing, nodes},
    hash,
};
use num_complex::Complex64;
use oracle::{
    expression::{ExpressionFunction, InfixOperator, PrefixOperator, infix_value},
    nodes::{Node, region_name, variable_name},
    trace::{Asked, Operation},
};
use std::{collections::HashMap, fmt::Write};
use ExpressionFunction::*;
use InfixOperator::*;
use PrefixOperator::Minus as Negative;

const ZERO: Complex64 = Complex64::new(0.0, 0.0);
const LARGEST: u64 = 1_000_000;
const DEEPEST: u64 = 64;
const LINES: usize = 1024;
const ROWS: usize = 256;
const TURNS: [Operation; 2] = [Operation::Cosine, Operation::Sine]; // as cis asks
const OPERATORS: [InfixOperator; 5] = [Plus, Minus, Star, Slash, Caret];

pub struct Input {
    pub name: String,
    pub nodes: Vec<Node>,
    pub swaps: Vec<(u16, usize)>, // what substituting puts in: the line for the variable
    pub sheet: Sheet,
    pub tape: Vec<u8>, // made by hand; empty where it is compiled
}

impl Input {
    fn new(name: impl Into<String>, nodes: Vec<Node>) -> Input {
        Input { name: name.into(), nodes, swaps: vec![], sheet: Sheet::default(), tape: vec![] }
    }

    fn with(mut self, sheet: Sheet) -> Input {
        self.sheet = sheet;
        self
    }

    pub fn list(&self) -> Vec<u8> {
        listing(&self.nodes)
    }

    pub fn list_with_swaps(&self) -> Vec<u8> {
        let lines: String = self.swaps.iter().map(|(variable, node)| format!("s\t{variable}\t{node}\n")).collect();
        [self.list(), lines.into_bytes()].concat()
    }

    pub fn size(&self) -> u64 {
        measures(&self.nodes).last().unwrap().0
    }
}

// ---- sheets

#[derive(Clone, Default)]
pub struct Sheet {
    variables: Vec<Complex64>,
    cells: Vec<Vec<f64>>, // of each region
    rows: Vec<(Asked, Complex64)>,
}

fn hex(z: Complex64) -> String {
    format!("{:016X}\t{:016X}", z.re.to_bits(), z.im.to_bits())
}

impl Sheet {
    fn full(random: &mut Random) -> Sheet {
        let rows = (0..ROWS).map(|_| (Asked::new(Operation::Sine, random.number(), ZERO), random.number()));
        let rows = rows.collect();
        let cells = (0..8).map(|_| (0..128).map(|_| random.real()).collect()).collect();
        Sheet { variables: (0..256).map(|_| random.number()).collect(), cells, rows }
    }

    pub fn text(&self) -> Vec<u8> {
        let mut text = String::new();
        for (v, z) in self.variables.iter().enumerate() {
            writeln!(text, "v\t{v}\t{}", hex(*z)).unwrap();
        }
        for (region, cells) in self.cells.iter().enumerate() {
            for (index, real) in cells.iter().enumerate() {
                writeln!(text, "m\t{region}\t{index}\t{:016X}", real.to_bits()).unwrap();
            }
        }
        for (asked, z) in &self.rows {
            let name = ["sin", "cos", "exp", "sqrt", "pow"][asked.operation as usize - 1];
            writeln!(text, "t\t{name}\t{}\t{}", asked.operands.map(|x| format!("{x:016X}")).join("\t"), hex(*z)).unwrap();
        }
        text.into_bytes()
    }

    // What the Rust is handed.
    pub fn maps(&self) -> (HashMap<String, Complex64>, HashMap<String, Vec<f64>>) {
        let variables = self.variables.iter().enumerate().map(|(v, z)| (variable_name(v as u16), *z));
        let cells = self.cells.iter().enumerate().map(|(r, c)| (region_name(r as u16), c.clone()));
        (variables.collect(), cells.collect())
    }

    // The value that the rows have for this, or else a row of its own with `value`.
    fn ask(&mut self, asked: Asked, value: &mut impl FnMut(Asked) -> Complex64) -> Complex64 {
        if let Some(row) = self.rows.iter().find(|row| row.0 == asked) {
            return row.1;
        }
        let z = value(asked);
        self.rows.push((asked, z));
        z
    }

    // With rows for all that the lines ask for.
    fn for_lines(mut self, nodes: &[Node], mut value: impl FnMut(Asked) -> Complex64) -> Sheet {
        let mut values: Vec<Complex64> = vec![];
        for node in nodes {
            values.push(match *node {
                Node::Number(z) => z,
                Node::Pi => Complex64::new(std::f64::consts::PI, 0.0),
                Node::Variable(v) => self.variables.get(v as usize).copied().unwrap_or_default(),
                Node::Cell(r, i) => self.cells.get(r as usize).map_or(ZERO, |c| c[i as usize].into()),
                Node::Prefix(Negative, a) => -values[a],
                Node::Prefix(_, a) => values[a],
                Node::Infix(Caret, a, b) => self.ask(Asked::new(Operation::Power, values[a], values[b]), &mut value),
                Node::Infix(o, a, b) => infix_value(values[a], o, values[b]),
                Node::Function(Cis, a) => {
                    let [cosine, sine] = TURNS.map(|o| self.ask(Asked::new(o, values[a], ZERO), &mut value));
                    infix_value(cosine, Plus, infix_value(Complex64::i(), Star, sine))
                }
                Node::Function(f, a) => self.ask(Asked::new(operation(f), values[a], ZERO), &mut value),
            });
        }
        self
    }

    // With rows before those that are asked for, so that these are the last of 256.
    fn after(mut self, mut row: impl FnMut(usize) -> Asked) -> Sheet {
        let before = (self.rows.len()..ROWS).map(|k| (row(k), ZERO));
        self.rows = before.chain(self.rows.iter().copied()).collect();
        self
    }
}

fn operation(f: ExpressionFunction) -> Operation {
    match f {
        Sine => Operation::Sine,
        Cosine | Cis => Operation::Cosine,
        Exponent => Operation::Exponent,
        SquareRoot => Operation::SquareRoot,
    }
}

// ---- listings

fn below(node: &Node) -> Vec<usize> {
    match *node {
        Node::Function(_, a) | Node::Prefix(_, a) => vec![a],
        Node::Infix(_, a, b) => vec![a, b],
        _ => vec![],
    }
}

// The size and the depth of each line's tree.
fn measures(nodes: &[Node]) -> Vec<(u64, u64)> {
    let mut known: Vec<(u64, u64)> = vec![];
    for node in nodes {
        let (sizes, depths): (Vec<u64>, Vec<u64>) = below(node).iter().map(|k| known[*k]).unzip();
        known.push((1 + sizes.iter().sum::<u64>(), 1 + depths.into_iter().max().unwrap_or(0)));
    }
    known
}

fn fits(nodes: &[Node]) -> bool {
    measures(nodes).last().is_some_and(|(size, depth)| *size <= LARGEST && *depth <= DEEPEST)
}

// The lines, and more of them over the last one each, as long as the limits and `most` allow.
fn repeated(mut nodes: Vec<Node>, most: usize, over: impl Fn(usize) -> Vec<Node>) -> Vec<Node> {
    for _ in 0..most {
        let longer = [nodes.clone(), over(nodes.len() - 1)].concat();
        if !fits(&longer) {
            break;
        }
        nodes = longer;
    }
    nodes
}

fn doubled(nodes: Vec<Node>, o: InfixOperator) -> Vec<Node> {
    repeated(nodes, LINES, |a| vec![Node::Infix(o, a, a)])
}

fn one() -> Node {
    Node::Number(Complex64::new(1.0, 0.5))
}

// Doublings, and their sums from the largest on, up to a size of 1,000,000.
fn million(leaf: Node) -> Vec<Node> {
    let mut nodes = doubled(vec![leaf], Plus);
    for k in (0..nodes.len()).rev() {
        let longer = [nodes.clone(), vec![Node::Infix(Star, nodes.len() - 1, k)]].concat();
        if fits(&longer) {
            nodes = longer;
        }
    }
    nodes
}

// 1024 lines in 64 layers, of any operations, with sizes that rise to 1,000,000.
fn layers(random: &mut Random, leaf: impl Fn(&mut Random) -> Node) -> Vec<Node> {
    let mut nodes: Vec<Node> = (0..16).map(|_| leaf(random)).collect();
    let mut sizes = vec![1; 16];
    for at in 16..LINES {
        let (from, most) = (at / 16 * 16 - 16, (LARGEST as f64).powf((at / 16) as f64 / 63.0) as u64);
        let a = from + random.below(16);
        let b = (0..64).map(|_| random.below(from + 16)).filter(|b| sizes[a] + sizes[*b] < most).max_by_key(|b| sizes[*b]);
        let (node, size) = match b {
            Some(b) => (Node::Infix([Plus, Minus, Star, Slash][random.below(4)], a, b), 1 + sizes[a] + sizes[b]),
            None => (Node::Prefix(Negative, a), 1 + sizes[a]),
        };
        nodes.push(node);
        sizes.push(size);
    }
    nodes
}

// Leaves under a tree that is even; with an odd one out a prefix.
fn even(leaves: Vec<Node>, operators: &[InfixOperator]) -> Vec<Node> {
    let (mut nodes, mut next) = (leaves, 0);
    while next + 1 < nodes.len() {
        nodes.push(Node::Infix(operators[next / 2 % operators.len()], next, next + 1));
        next += 2;
    }
    nodes
}

// Cis and doublings in turns, then cis alone up to the depth of 64.
fn nested_cis() -> Vec<Node> {
    let turns = repeated(vec![one()], LINES, |a| vec![Node::Infix(Plus, a, a), Node::Function(Cis, a + 1)]);
    repeated(turns, LINES, |a| vec![Node::Function(Cis, a)])
}

// ---- all of them

// What search.rs found, alone and after lines that collide with a number of which simplifying makes much use; and the two examples
// that are refused after much was done.
fn found(random: &mut Random) -> Vec<Input> {
    let calls = nodes(include_str!("calls.list"));
    let mut inputs = vec![
        Input::new("found: the most simplify calls", calls.clone()),
        Input::new("found: simplified longest", nodes(include_str!("time.list"))),
        Input::new("found: refused latest", nodes(include_str!("refused.list"))),
        Input::new("examples: full_store", nodes(include_str!("../../examples/simplify/full_store/job"))),
        Input::new("examples: long_result", nodes(include_str!("../../examples/simplify/long_result/job"))),
    ];
    for n in [0, 2] {
        let before = hash::whole(random, n, LINES - calls.len());
        inputs.push(Input::new(format!("found: the most calls, after {n} and colliding"), hash::after(&before, &calls)));
    }
    inputs
}

fn doublings(random: &mut Random) -> Vec<Input> {
    let mut inputs = vec![];
    for o in OPERATORS {
        let nodes = doubled(vec![one()], o);
        let sheet = Sheet::default().for_lines(&nodes, |asked| asked.value());
        inputs.push(Input::new(format!("doubling {o}"), nodes).with(sheet));
    }
    let full = Sheet::full(random);
    for (name, leaf) in [("a variable", Node::Variable(255)), ("a cell", Node::Cell(7, 127))] {
        inputs.push(Input::new(format!("doubling of {name}, full sheet"), doubled(vec![leaf], Plus)).with(full.clone()));
    }
    inputs.push(Input::new("doublings to 1,000,000", million(one())));
    let prefixes = repeated(vec![one()], 46, |a| vec![Node::Prefix(Negative, a)]);
    inputs.push(Input::new("prefixes under doublings", doubled(prefixes, Star)));
    let turns = repeated(vec![one()], LINES, |a| vec![Node::Infix(Star, a, a), Node::Prefix(Negative, a + 1)]);
    inputs.push(Input::new("doublings and prefixes in turns", turns));
    for f in [Sine, Cis] {
        let nodes = doubled(repeated(vec![one()], 28, |a| vec![Node::Function(f, a)]), Plus);
        let sheet = Sheet::default().for_lines(&nodes, |asked| asked.value());
        inputs.push(Input::new(format!("{f} under doublings"), nodes).with(sheet));
    }
    let mut lack = doubled(vec![one()], Plus);
    lack.push(Node::Variable(300));
    lack.push(Node::Infix(Star, lack.len() - 2, lack.len() - 1));
    inputs.push(Input::new("a lack after doublings", lack));
    inputs
}

// Function values under full rows; the values are not those of the functions.
fn functions(random: &mut Random) -> Vec<Input> {
    let nodes = nested_cis();
    // numbers with one and the same real part, whose double is an operand in turn
    let mut k = 0.0;
    let same_word = Sheet::default().for_lines(&nodes, |asked| {
        k += 1.0;
        if asked.operation == Operation::Sine { ZERO } else { Complex64::new(1.0, k) }
    });
    let asked = |re: f64, im: f64| Asked::new(Operation::Sine, Complex64::new(re, im), ZERO);
    let true_rows = Sheet::default().for_lines(&nodes, |asked| asked.value());
    let first_word = |k: usize| Asked::new(TURNS[k % 2], Complex64::new(2.0, -(k as f64)), ZERO);
    let mut inputs = vec![
        Input::new("cis in cis, late rows", nodes.clone()).with(true_rows.clone().after(|_| asked(random.real(), 0.0))),
        Input::new("cis in cis, one first word", nodes.clone()).with(same_word.after(first_word)),
        Input::new("cis in cis, equal rows before", nodes.clone()).with(true_rows.after(|_| asked(0.25, 0.0))),
        Input::new("cis in cis, colliding rows", nodes.clone()).with(colliding_rows(random, &nodes)),
    ];
    let many = even((0..64).map(|_| Node::Number(random.number())).collect(), &[Caret]);
    let sheet = Sheet::default().for_lines(&many, |asked| asked.value()).after(|_| asked(random.real(), 0.0));
    inputs.push(Input::new("powers, late rows", many).with(sheet));
    inputs.push(Input::new("equal rows alone", vec![one()]).with(Sheet::default().after(|_| asked(0.25, 0.0))));
    inputs.push(Input::new("the last row is lacking", nodes.clone()).with({
        let mut sheet = Sheet::default().for_lines(&nodes, |asked| asked.value()).after(|_| asked(random.real(), 0.0));
        sheet.rows.pop();
        sheet
    }));
    inputs
}

// A cis at nearly every node, and all of one operand, whose rows are the last: sixteen variables with one value, a chain of cis over
// each, and their sum. In a tape the chain is as long as the tape.
fn one_operand(random: &mut Random) -> Vec<Input> {
    let z = one_value();
    let mut nodes: Vec<Node> = (0..16).map(Node::Variable).collect();
    let mut ends: Vec<usize> = (0..16).collect();
    for _ in 0..59 {
        for end in &mut ends {
            nodes.push(Node::Function(Cis, *end));
            *end = nodes.len() - 1;
        }
    }
    while ends.len() > 1 {
        let first = nodes.len();
        nodes.extend(ends.chunks(2).map(|pair| Node::Infix(Plus, pair[0], pair[1])));
        ends = (first..nodes.len()).collect();
    }
    let value = |asked: Asked| if asked.operation == Operation::Cosine { z } else { ZERO };
    let sheet = Sheet { variables: vec![z; 16], ..Sheet::default() }.for_lines(&nodes, value);
    let colliding = sheet.clone().after(of_buckets(random, z));
    let sheet = sheet.after(|k| Asked::new(TURNS[k % 2], Complex64::new(z.re, random.real()), ZERO));
    let mut step = [0; 24];
    step[..2].copy_from_slice(&[5, 5]);
    let mut tape = Input::new("511 cis of one operand, late rows", vec![one()]).with(sheet.clone());
    tape.tape = [[3].as_slice(), &[0; 23], &step.repeat(511)].concat(); // variable 0, and cis
    let again = Input::new("944 cis of one operand, colliding rows", nodes.clone()).with(colliding);
    vec![Input::new("944 cis of one operand, late rows", nodes).with(sheet), again, tape]
}

// Values by which each operand of cis has its two rows in the first one's buckets, and other rows of these buckets before.
fn colliding_rows(random: &mut Random, nodes: &[Node]) -> Sheet {
    let buckets = |z: Complex64| TURNS.map(|o| hash::row_bucket(Asked::new(o, z, ZERO)));
    let wanted = buckets(one_value() + one_value());
    let mut draw = |twice: bool| loop {
        let z = random.number();
        if buckets(if twice { z + z } else { z }) == wanted {
            return z;
        }
    };
    let sheet = Sheet::default().for_lines(nodes, |asked| if asked.operation == Operation::Sine { ZERO } else { draw(true) });
    sheet.after(|k| Asked::new(TURNS[k % 2], draw(false), ZERO))
}

// Rows in turns of the buckets of cos and sin of z.
fn of_buckets(random: &mut Random, z: Complex64) -> impl FnMut(usize) -> Asked + '_ {
    move |k| loop {
        let asked = Asked::new(TURNS[k % 2], random.number(), ZERO);
        if hash::row_bucket(asked) == hash::row_bucket(Asked::new(TURNS[k % 2], z, ZERO)) {
            return asked;
        }
    }
}

fn one_value() -> Complex64 {
    let Node::Number(z) = one() else { unreachable!() };
    z
}

// Listings and sheets that are as long as they may be.
fn long(random: &mut Random) -> Vec<Input> {
    let full = Sheet::full(random);
    let mut drawn: Vec<Node> = (0..LINES).map(|_| Node::Number(random.number())).collect();
    drawn[LINES - 1] = Node::Number(Complex64::new(1.5, 0.0)); // real
    let leaf = |k: u16| if k < 256 { Node::Variable(k) } else { Node::Cell(k / 128, u32::from(k) % 128) };
    let bound: Vec<Node> = (0..512).map(leaf).collect();
    let mut inputs = vec![
        Input::new("1024 numbers", drawn.clone()),
        Input::new("512 numbers under an even tree", even(drawn[..512].to_vec(), &[Plus, Minus, Star, Slash])),
        Input::new("a leaf, full sheet", vec![Node::Cell(3, 77)]).with(full.clone()),
        Input::new("512 leaves, full sheet", even(bound.clone(), &[Plus, Minus, Star, Slash])).with(full.clone()),
        Input::new("layers to 1,000,000", layers(random, |r| Node::Number(r.number()))),
        Input::new("layers of variables, full sheet", layers(random, |r| Node::Variable(r.below(256) as u16))).with(full.clone()),
        Input::new("products of sums", even(bound, &[Plus, Plus, Star])).with(full),
    ];
    let mut bad = inputs[0].nodes.clone();
    bad.push(one());
    inputs.push(Input::new("1025 lines", bad));
    inputs
}

// Every variable is put in for: the results are as large as they may be.
fn swapped(random: &mut Random) -> Vec<Input> {
    let leaves: Vec<Node> = (0..256).map(Node::Variable).collect();
    let mut tree = Input::new("256 s lines, an even tree", even(leaves.clone(), &[Plus, Star]));
    tree.swaps = (0..256).map(|v| (v, 256 + usize::from(v) % 255)).collect();
    let mut chain = Input::new("s lines, doubling of a variable", doubled(vec![Node::Variable(255)], Plus));
    chain.swaps = (0..256).map(|v| (v, 0)).collect();
    let mut wide = Input::new("s lines, layers of variables", layers(random, |r| Node::Variable(r.below(256) as u16)));
    wide.swaps = (0..256).map(|v| (v, usize::from(v) % 16)).collect();
    vec![tree, chain, wide]
}

fn colliding(random: &mut Random) -> Vec<Input> {
    let half = |nodes: Vec<Node>| even(nodes[..512].to_vec(), &[Plus, Star]);
    let (linear, now) = (hash::linear_numbers(LINES), hash::numbers(random, LINES));
    vec![
        Input::new("1024 numbers, colliding under the linear hash", linear.clone()),
        Input::new("512 of these under an even tree", half(linear)),
        Input::new(COLLIDING, now.clone()),
        Input::new("512 of those under an even tree", half(now)),
        Input::new("624 operations, colliding under the hash", hash::operations(random, 400, LINES)),
    ]
}

pub const COLLIDING: &str = "1024 numbers, colliding under the hash";
pub const DRAWN: &str = "1024 numbers";

pub fn all(random: &mut Random) -> Vec<Input> {
    let mut inputs = doublings(random);
    inputs.extend(functions(random));
    inputs.extend(one_operand(random));
    inputs.extend(long(random));
    inputs.extend(swapped(random));
    inputs.extend(colliding(random));
    inputs.extend(found(random));
    inputs
}
