// Tapes that were damaged, and tapes of any steps: most are unsound, some are not.
use crate::cases::{FUNCTIONS, INFIXES, PREFIXES};
use crate::random::{Numbers, Random};
use crate::tape::{STACK, STEP, STEPS, step, takes};
use oracle::nodes::Node;

const PLUS: Node = Node::Infix(INFIXES[0], 0, 0);
const FIELDS: [(usize, usize); 6] = [(0, 1), (1, 1), (2, 2), (4, 4), (8, 8), (16, 8)]; // where they begin, and how long they are
const NANS: [u64; 3] = [0xFFF8_0000_0000_0000, 0x7FF0_0000_0000_0001, 0x7FF8_0000_0000_0001];

fn steps_of(tape: &[u8]) -> Vec<[u8; STEP]> {
    tape.chunks_exact(STEP).map(|s| s.try_into().expect("a step")).collect()
}

fn leaf(random: &mut Random, is_plain: bool) -> Node {
    match random.below(if is_plain { 3 } else { 5 }) {
        0 => Node::Number(random.complex(Numbers::Wild)),
        1 => Node::Number(random.complex(Numbers::Plane)),
        2 => Node::Pi,
        3 => Node::Variable(random.below(4) as u16),
        _ => Node::Cell(random.below(4) as u16, random.below(4) as u32),
    }
}

// Plain are those that ask nothing of a sheet.
fn any_node(random: &mut Random, is_plain: bool) -> Node {
    let infixes = if is_plain { &INFIXES[..4] } else { &INFIXES };
    match random.below(if is_plain { 7 } else { 8 }) {
        0..=3 => leaf(random, is_plain),
        4 => Node::Prefix(random.pick(&PREFIXES), 0),
        5 | 6 => Node::Infix(random.pick(infixes), 0, 0),
        _ => Node::Function(random.pick(&FUNCTIONS), 0),
    }
}

// Steps that push to a height, then any that find their operands, and infixes to the end.
fn any_steps(random: &mut Random) -> Vec<u8> {
    let is_plain = !random.once_in(3);
    let height = if random.once_in(3) { STACK + random.below(4) - 2 } else { random.from(1, 12) };
    let more = if random.once_in(8) { STEPS - 2 * height + random.below(5) } else { random.below(40) };
    let mut tape: Vec<u8> = (0..height).flat_map(|_| step(leaf(random, is_plain))).collect();
    let mut held = height;
    for _ in 0..more {
        let node = any_node(random, is_plain);
        if takes(node) <= held && (takes(node) > 0 || held < height) {
            held = held + 1 - takes(node);
            tape.extend(step(node));
        }
    }
    for _ in 1..held {
        tape.extend(step(Node::Infix(random.pick(&INFIXES[..4]), 0, 0)));
    }
    tape
}

// The sum of a tape and others like it, in all of about 512 steps.
fn long(random: &mut Random, tape: &[u8]) -> Vec<u8> {
    let mut sum = tape.to_vec();
    let wanted = STEPS + random.below(4) - 1;
    while sum.len() / STEP + tape.len() / STEP < wanted {
        sum.extend(tape.iter().copied().chain(step(PLUS)));
    }
    while sum.len() / STEP < wanted {
        sum.extend(step(Node::Prefix(random.pick(&PREFIXES), 0)));
    }
    sum
}

// One of its steps is left out, comes twice, or stands elsewhere.
fn with_steps_moved(random: &mut Random, tape: &[u8]) -> Vec<u8> {
    let mut steps = steps_of(tape);
    let (at, to) = (random.below(steps.len()), random.below(steps.len()));
    match random.below(4) {
        0 => drop(steps.remove(at)),
        1 => steps.insert(to, steps[at]),
        2 => steps.swap(at, to),
        _ => steps.insert(to, step(any_node(random, false))),
    }
    steps.concat()
}

// A byte of one field of a step.
fn with_a_byte_changed(random: &mut Random, tape: &[u8]) -> Vec<u8> {
    let mut tape = tape.to_vec();
    let (field, width) = random.pick(&FIELDS);
    let at = STEP * random.below(tape.len() / STEP) + field + random.below(width);
    tape[at] = match random.below(4) {
        0 => random.below(9) as u8,
        1 => tape[at].wrapping_add(1),
        2 => tape[at] ^ 1 << random.below(8),
        _ => random.next() as u8,
    };
    tape
}

fn with_another_nan(random: &mut Random, tape: &[u8]) -> Vec<u8> {
    let mut steps = steps_of(tape);
    let at = random.below(steps.len());
    if random.once_in(2) {
        steps[at] = step(Node::Number(random.complex(Numbers::Plane)));
    }
    let part = random.pick(&[8, 16]);
    steps[at][part..part + 8].copy_from_slice(&random.pick(&NANS).to_le_bytes());
    steps.concat()
}

fn joined(random: &mut Random, tape: &[u8], other: &[u8]) -> Vec<u8> {
    let mut both = [tape, other].concat();
    if random.once_in(2) {
        both.extend(step(Node::Infix(random.pick(&INFIXES), 0, 0)));
    }
    both
}

fn cut(random: &mut Random, tape: &[u8]) -> Vec<u8> {
    let steps = random.below(tape.len() / STEP);
    tape[..if random.once_in(2) { STEP * steps } else { random.below(tape.len()) }].to_vec()
}

// What was done to a sound tape, and what came of it.
pub fn damaged(random: &mut Random, tape: &[u8], other: &[u8]) -> (&'static str, Vec<u8>) {
    match random.below(12) {
        0..=3 => ("a byte changed", with_a_byte_changed(random, tape)),
        4 => ("another NaN", with_another_nan(random, tape)),
        5 | 6 => ("a step left out, put in or moved", with_steps_moved(random, tape)),
        7 => ("cut", cut(random, tape)),
        8 | 9 => ("two joined", joined(random, tape, other)),
        10 => ("joined to about 512 steps", long(random, tape)),
        _ => ("any steps", any_steps(random)),
    }
}
