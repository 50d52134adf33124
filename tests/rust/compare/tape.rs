// The tape as the rules say it, as plainly as can be: the bytes of a tree, whether bytes are sound, what playing them
// answers and which rows it uses, and which of two tapes is picked.
use crate::arithmetic::{function_value, infix_value, negated, real};
use crate::cases::{FUNCTIONS, INFIXES, PREFIXES};
use crate::question::{Answer, BAD_TAPE, INCOMPLETE};
use crate::rows::Rows;
use crate::store::children;
use crate::texts::{double, field, place};
use num_complex::Complex64;
use oracle::expression::PrefixOperator;
use oracle::nodes::Node;
use oracle::trace::{Asked, Operation, bits};
use std::collections::{BTreeSet, HashMap};
use std::f64::consts::PI;

pub const STEP: usize = 24; // bytes
pub const STEPS: usize = 512; // that a tape may have
pub const STACK: usize = 64;

// A node's step. What stands below the node is on the stack.
pub fn step(node: Node) -> [u8; STEP] {
    let (opcode, sub, half, word, re, im) = match node {
        Node::Number(z) => (1, 0, 0, 0, bits(z.re), bits(z.im)),
        Node::Pi => (2, 0, 0, 0, 0, 0),
        Node::Variable(v) => (3, 0, v, 0, 0, 0),
        Node::Cell(r, i) => (4, 0, r, i, 0, 0),
        Node::Function(f, _) => (5, 1 + place(&FUNCTIONS, f), 0, 0, 0, 0),
        Node::Prefix(o, _) => (6, 1 + place(&PREFIXES, o), 0, 0, 0, 0),
        Node::Infix(o, ..) => (7, 1 + place(&INFIXES, o), 0, 0, 0, 0),
    };
    let mut step = [0; STEP];
    step[0] = opcode;
    step[1] = sub as u8;
    step[2..4].copy_from_slice(&u16::to_le_bytes(half));
    step[4..8].copy_from_slice(&u32::to_le_bytes(word));
    step[8..16].copy_from_slice(&re.to_le_bytes());
    step[16..24].copy_from_slice(&im.to_le_bytes());
    step
}

fn word_at(step: &[u8], at: usize) -> u64 {
    u64::from_le_bytes(step[at..at + 8].try_into().expect("eight bytes"))
}

// The node, without its children, whose step these bytes are, if there is one.
fn node_of(step: &[u8]) -> Option<Node> {
    let sub = usize::from(step[1]).checked_sub(1);
    let (half, word) = (word_at(step, 0) >> 16, word_at(step, 0) >> 32);
    let [re, im] = [8, 16].map(|at| f64::from_bits(word_at(step, at)));
    let node = match step[0] {
        1 => Node::Number(Complex64::new(re, im)),
        2 => Node::Pi,
        3 => Node::Variable(half as u16),
        4 => Node::Cell(half as u16, word as u32),
        5 => Node::Function(*FUNCTIONS.get(sub?)?, 0),
        6 => Node::Prefix(*PREFIXES.get(sub?)?, 0),
        7 => Node::Infix(*INFIXES.get(sub?)?, 0, 0),
        _ => return None,
    };
    (self::step(node) == *step).then_some(node) // a field that is not used, or a NaN that is not the one
}

// ---- compiling

fn visit(nodes: &[Node], line: usize, tape: &mut Vec<u8>) {
    children(nodes[line]).into_iter().for_each(|c| visit(nodes, c, tape));
    tape.extend(step(nodes[line]));
}

// Size and depth of the last line's tree.
pub fn size_and_depth(nodes: &[Node]) -> (usize, usize) {
    let mut all: Vec<(usize, usize)> = Vec::new();
    for node in nodes {
        let below = children(*node);
        let size = below.iter().fold(1usize, |sum, c| sum.saturating_add(all[*c].0));
        all.push((size, 1 + below.iter().map(|c| all[*c].1).max().unwrap_or(0)));
    }
    *all.last().expect("a line")
}

// The tape of the last line's tree, unless that is too large.
pub fn compiled(nodes: &[Node]) -> Option<Vec<u8>> {
    let mut tape = Vec::new();
    if size_and_depth(nodes).0 > STEPS {
        return None;
    }
    visit(nodes, nodes.len() - 1, &mut tape);
    Some(tape)
}

// ---- soundness

// How many steps a sound tape has, and the most that its stack holds.
#[derive(Clone, Copy, Debug)]
pub struct Sound {
    pub steps: usize,
    pub highest: usize,
}

// The first bad step otherwise.
pub fn checked(tape: &[u8]) -> Result<Sound, u64> {
    let steps = tape.len() / STEP;
    if tape.len() % STEP != 0 || steps == 0 || steps > STEPS {
        return Err(0);
    }
    let (mut held, mut highest) = (0, 0);
    for (number, step) in tape.chunks(STEP).enumerate() {
        let takes = node_of(step).map(takes);
        let Some(takes) = takes.filter(|n| *n <= held) else { return Err(number as u64) };
        held = held - takes + 1;
        highest = held.max(highest);
        if held > STACK {
            return Err(number as u64);
        }
    }
    if held == 1 { Ok(Sound { steps, highest }) } else { Err(steps as u64) }
}

// How many values a step takes from the stack.
pub fn takes(node: Node) -> usize {
    children(node).len()
}

pub fn check_answer(tape: &[u8]) -> Answer {
    match checked(tape) {
        Ok(sound) => Answer::at(0, sound.steps as u64),
        Err(step) => Answer::at(BAD_TAPE, step),
    }
}

// ---- playing

// A sheet that is not refused.
#[derive(Default)]
pub struct Sheet {
    variables: HashMap<u16, Complex64>,
    cells: HashMap<(u16, u32), f64>,
    rows: Rows,
}

impl Sheet {
    pub fn read(text: &str) -> Self {
        let mut sheet = Self { rows: Rows::read(text), ..Self::default() };
        for line in text.lines() {
            match line.split('\t').collect::<Vec<_>>()[..] {
                ["v", v, re, im] => drop(sheet.variables.insert(field(v), Complex64::new(double(re), double(im)))),
                ["m", r, i, x] => drop(sheet.cells.insert((field(r), field(i)), double(x))),
                ["t", ..] => {}
                _ => panic!("a line of a sheet: {line}"),
            }
        }
        sheet
    }

    fn player(&self) -> Player<'_> {
        Player { sheet: self, stack: vec![], used: BTreeSet::new() }
    }
}

// What stands on the stack, and which rows were used.
struct Player<'a> {
    sheet: &'a Sheet,
    stack: Vec<Complex64>,
    used: BTreeSet<usize>,
}

impl Player<'_> {
    fn ask(&mut self, operation: Operation, x: Complex64, y: Complex64) -> Result<Complex64, Answer> {
        let asked = Asked::new(operation, x, y);
        let (number, value) = self.sheet.rows.find(asked).ok_or_else(|| Answer::need(asked))?;
        self.used.insert(number);
        Ok(value)
    }

    fn pop(&mut self) -> Complex64 {
        self.stack.pop().expect("a sound tape")
    }

    // What a step puts on the stack.
    fn value(&mut self, node: Node) -> Result<Complex64, Answer> {
        let incomplete = || Answer::refusal(INCOMPLETE);
        match node {
            Node::Number(z) => Ok(z),
            Node::Pi => Ok(real(PI)),
            Node::Variable(v) => self.sheet.variables.get(&v).copied().ok_or_else(incomplete),
            Node::Cell(r, i) => self.sheet.cells.get(&(r, i)).copied().map(real).ok_or_else(incomplete),
            Node::Function(f, _) => {
                let x = self.pop();
                function_value(f, x, |o, x, y| self.ask(o, x, y))
            }
            Node::Prefix(PrefixOperator::Plus, _) => Ok(self.pop()),
            Node::Prefix(PrefixOperator::Minus, _) => Ok(negated(self.pop())),
            Node::Infix(o, ..) => {
                let (right, left) = (self.pop(), self.pop());
                infix_value(left, o, right, |o, x, y| self.ask(o, x, y))
            }
        }
    }

    fn play(&mut self, tape: &[u8]) -> Result<Complex64, Answer> {
        for node in tape.chunks(STEP).map(|step| node_of(step).expect("a sound tape")) {
            let value = self.value(node)?;
            self.stack.push(value);
        }
        Ok(self.pop())
    }
}

pub fn play_answer(tape: &[u8], sheet: &Sheet) -> Answer {
    let check = check_answer(tape);
    if check.number != 0 {
        return check;
    }
    let mut player = sheet.player();
    let answer = match player.play(tape) {
        Ok(z) => Answer { words: [bits(z.re), bits(z.im), 0, 0], ..Answer::default() },
        Err(lack) => lack,
    };
    answer.marked(player.used)
}

// ---- picking

// 0 for neither, 1 for the first, 2 for the second; and how long the picked one is.
pub fn picked(first: &[u8], second: &[u8]) -> (u64, u64) {
    let [one, two] = [first, second].map(|tape| checked(tape).ok().map(|sound| sound.steps));
    match (one, two) {
        (None, None) => (0, 0),
        (Some(one), Some(two)) if two < one => (2, second.len() as u64),
        (None, Some(_)) => (2, second.len() as u64),
        (Some(_), _) => (1, first.len() as u64),
    }
}
