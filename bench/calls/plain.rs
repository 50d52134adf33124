// The public calls as one writes them with std over the Rust's own module: the bytes are parsed, its function is called, the answer is
// written. Of a text that is wrong there is no answer.
use internment::ArcIntern;
use num_complex::Complex64;
use oracle::expression::{Expression, ExpressionFunction, InfixOperator, PrefixOperator, interned};
use oracle::{instruction::MemoryReference, trace::bits};
use std::{collections::HashMap, fmt::Write, str::from_utf8};

// ---- texts

fn real(field: &str) -> Option<f64> {
    Some(f64::from_bits(u64::from_str_radix(field, 16).ok()?))
}

fn function(name: &str) -> Option<ExpressionFunction> {
    use ExpressionFunction::*;
    Some(match name {
        "sin" => Sine,
        "cos" => Cosine,
        "exp" => Exponent,
        "sqrt" => SquareRoot,
        "cis" => Cis,
        _ => return None,
    })
}

fn prefix(sign: &str) -> Option<PrefixOperator> {
    match sign {
        "+" => Some(PrefixOperator::Plus),
        "-" => Some(PrefixOperator::Minus),
        _ => None,
    }
}

fn infix(sign: &str) -> Option<InfixOperator> {
    use InfixOperator::*;
    Some(match sign {
        "+" => Plus,
        "-" => Minus,
        "*" => Star,
        "/" => Slash,
        "^" => Caret,
        _ => return None,
    })
}

// The expression of a listing, and what its s lines put in. A variable's name is its number's text.
pub fn listing(bytes: &[u8]) -> Option<(Expression, HashMap<String, Expression>)> {
    let (mut made, mut swaps): (Vec<ArcIntern<Expression>>, _) = (Vec::new(), HashMap::new());
    for line in from_utf8(bytes).ok()?.lines() {
        let mut fields = line.split('\t');
        let kind = fields.next()?;
        let mut field = || fields.next();
        let child = |field: Option<&str>| made.get(field?.parse::<usize>().ok()?).cloned();
        let node = match kind {
            "n" => interned::number(Complex64::new(real(field()?)?, real(field()?)?)),
            "p" => Expression::PiConstant().into(),
            "v" => Expression::Variable(field()?.into()).into(),
            "m" => Expression::Address(MemoryReference { name: field()?.into(), index: field()?.parse().ok()? }).into(),
            "f" => interned::function_call(function(field()?)?, child(field())?),
            "u" => interned::prefix(prefix(field()?)?, child(field())?),
            "b" => {
                let operator = infix(field()?)?;
                interned::infix(child(field())?, operator, child(field())?)
            }
            "s" => {
                let name = field()?.to_string();
                swaps.insert(name, (*child(field())?).clone());
                continue;
            }
            _ => return None,
        };
        made.push(node);
    }
    Some(((**made.last()?).clone(), swaps))
}

pub type Values = (HashMap<String, Complex64>, HashMap<String, Vec<f64>>);

// The variables and the memory of a sheet; the Rust works functions out by itself.
pub fn sheet(bytes: &[u8]) -> Option<Values> {
    let (mut variables, mut memory): Values = (HashMap::new(), HashMap::new());
    for line in from_utf8(bytes).ok()?.lines() {
        let mut fields = line.split('\t');
        let kind = fields.next()?;
        let mut field = || fields.next();
        match kind {
            "v" => _ = variables.insert(field()?.to_string(), Complex64::new(real(field()?)?, real(field()?)?)),
            "m" => {
                let (region, index) = (field()?, field()?.parse::<usize>().ok()?);
                if !memory.contains_key(region) {
                    memory.insert(region.to_string(), Vec::new());
                }
                let cells = memory.get_mut(region)?;
                cells.resize(cells.len().max(index + 1), 0.0);
                cells[index] = real(field()?)?;
            }
            "t" => (),
            _ => return None,
        }
    }
    Some((variables, memory))
}

// Each node once, in the order in which they are finished: the lines of those that are written.
#[derive(Default)]
struct Paper {
    text: String,
    lines: HashMap<ArcIntern<Expression>, usize>,
}

impl Paper {
    fn write(&mut self, e: &ArcIntern<Expression>) -> Option<usize> {
        if let Some(line) = self.lines.get(e) {
            return Some(*line);
        }
        match &**e {
            Expression::Number(z) => writeln!(self.text, "n\t{:016X}\t{:016X}", bits(z.re), bits(z.im)),
            Expression::PiConstant() => writeln!(self.text, "p"),
            Expression::Variable(name) => writeln!(self.text, "v\t{name}"),
            Expression::Address(cell) => writeln!(self.text, "m\t{}\t{}", cell.name, cell.index),
            Expression::FunctionCall(f) => {
                let a = self.write(&f.expression)?;
                writeln!(self.text, "f\t{}\t{a}", f.function)
            }
            Expression::Prefix(p) => {
                let a = self.write(&p.expression)?;
                writeln!(self.text, "u\t{}\t{a}", p.operator)
            }
            Expression::Infix(i) => {
                let (a, b) = (self.write(&i.left)?, self.write(&i.right)?);
                writeln!(self.text, "b\t{}\t{a}\t{b}", i.operator)
            }
        }
        .ok()?;
        let line = self.lines.len();
        self.lines.insert(e.clone(), line);
        Some(line)
    }
}

// To the Rust equal nodes are one, and zeros of either sign are equal: of such nodes the first is written, and there is no second.
pub fn written(e: Expression) -> Option<String> {
    let mut paper = Paper::default();
    paper.write(&e.into())?;
    Some(paper.text)
}

// A step has 24 bytes: opcode, sub, u16, u32, two doubles.
fn step(tape: &mut Vec<u8>, opcode: u8, sub: u8, half: u16, word: u32, z: Complex64) {
    tape.extend([opcode, sub]);
    tape.extend(half.to_le_bytes());
    tape.extend(word.to_le_bytes());
    tape.extend(z.re.to_le_bytes());
    tape.extend(z.im.to_le_bytes());
}

fn write_steps(e: &Expression, tape: &mut Vec<u8>) -> Option<()> {
    let zero = Complex64::new(0.0, 0.0);
    let (opcode, sub) = match e {
        Expression::Number(z) => return Some(step(tape, 1, 0, 0, 0, *z)),
        Expression::Variable(name) => return Some(step(tape, 3, 0, name.parse().ok()?, 0, zero)),
        Expression::Address(cell) => return Some(step(tape, 4, 0, cell.name.parse().ok()?, cell.index as u32, zero)),
        Expression::PiConstant() => (2, 0),
        Expression::FunctionCall(f) => {
            write_steps(&f.expression, tape)?;
            (5, [5, 2, 3, 1, 4][f.function as usize]) // Cis, Cosine, Exponent, Sine, SquareRoot
        }
        Expression::Prefix(p) => {
            write_steps(&p.expression, tape)?;
            (6, 1 + p.operator as u8)
        }
        Expression::Infix(i) => {
            write_steps(&i.left, tape)?;
            write_steps(&i.right, tape)?;
            (7, [5, 1, 2, 4, 3][i.operator as usize]) // Caret, Plus, Minus, Slash, Star
        }
    };
    Some(step(tape, opcode, sub, 0, 0, zero))
}

// ---- the calls

pub fn evaluate(list: &[u8], values: &[u8]) -> Option<Complex64> {
    let (root, _) = listing(list)?;
    evaluate_tree(&root, values)
}

// The same of an expression that is at hand.
pub fn evaluate_tree(root: &Expression, values: &[u8]) -> Option<Complex64> {
    let (variables, memory) = sheet(values)?;
    root.evaluate(&variables, &memory).ok()
}

// A listing read and written again, by which what the library writes is compared with what is written here.
pub fn rewritten(list: &[u8]) -> Option<String> {
    written(listing(list)?.0)
}

pub fn simplify(list: &[u8]) -> Option<String> {
    written(listing(list)?.0.into_simplified())
}

pub fn substitute(list: &[u8]) -> Option<String> {
    let (root, swaps) = listing(list)?;
    written(root.substitute_variables(&swaps))
}

pub fn compile(list: &[u8]) -> Option<Vec<u8>> {
    let mut tape = Vec::new();
    write_steps(&listing(list)?.0, &mut tape)?;
    Some(tape)
}
