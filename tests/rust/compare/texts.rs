// The two texts of the rules: listings and sheets written from a case, and a written listing read back.
use crate::cases::{Case, FUNCTIONS, INFIXES, PREFIXES};
use internment::ArcIntern;
use num_complex::Complex64;
use oracle::expression::{Expression, FunctionCallExpression, InfixExpression, PrefixExpression};
use oracle::nodes::{Node, number_of};
use oracle::trace::{Asked, OPERATIONS, Operation, bits};
use std::collections::HashMap;
use std::fmt::{Debug, Write};

const FUNCTION_NAMES: [&str; 5] = ["sin", "cos", "exp", "sqrt", "cis"];
const PREFIX_NAMES: [&str; 2] = ["+", "-"];
const INFIX_NAMES: [&str; 5] = ["+", "-", "*", "/", "^"];
const ROW_NAMES: [&str; 5] = ["sin", "cos", "exp", "sqrt", "pow"];

pub fn place<T: PartialEq>(all: &[T], one: T) -> usize {
    all.iter().position(|x| *x == one).expect("one of these")
}

fn write_node(text: &mut String, node: Node) {
    match node {
        // as given: a NaN may have any pattern
        Node::Number(z) => write!(text, "n\t{:016X}\t{:016X}", z.re.to_bits(), z.im.to_bits()),
        Node::Pi => write!(text, "p"),
        Node::Variable(v) => write!(text, "v\t{v}"),
        Node::Cell(r, i) => write!(text, "m\t{r}\t{i}"),
        Node::Function(f, c) => write!(text, "f\t{}\t{c}", FUNCTION_NAMES[place(&FUNCTIONS, f)]),
        Node::Prefix(o, c) => write!(text, "u\t{}\t{c}", PREFIX_NAMES[place(&PREFIXES, o)]),
        Node::Infix(o, l, r) => write!(text, "b\t{}\t{l}\t{r}", INFIX_NAMES[place(&INFIXES, o)]),
    }
    .expect("a string");
    text.push('\n');
}

pub fn listing(nodes: &[Node], swaps: &[(u16, usize)]) -> String {
    let mut text = String::new();
    nodes.iter().for_each(|n| write_node(&mut text, *n));
    swaps.iter().for_each(|(v, at)| writeln!(text, "s\t{v}\t{at}").expect("a string"));
    text
}

fn row_name(operation: Operation) -> &'static str {
    ROW_NAMES[operation as usize - 1]
}

pub fn operation_of(name: &str) -> Operation {
    OPERATIONS[place(&ROW_NAMES, name)]
}

pub fn row(asked: Asked, value: Complex64) -> String {
    let [a, b, c, d] = asked.operands;
    let (re, im) = (bits(value.re), bits(value.im));
    format!("t\t{}\t{a:016X}\t{b:016X}\t{c:016X}\t{d:016X}\t{re:016X}\t{im:016X}\n", row_name(asked.operation))
}

// The v and m lines of a case's sheet.
pub fn bindings(case: &Case) -> String {
    let mut text = String::new();
    for (v, z) in &case.variables {
        writeln!(text, "v\t{v}\t{:016X}\t{:016X}", z.re.to_bits(), z.im.to_bits()).expect("a string");
    }
    for (region, values) in &case.cells {
        for (index, x) in values.iter().enumerate() {
            writeln!(text, "m\t{region}\t{index}\t{:016X}", x.to_bits()).expect("a string");
        }
    }
    text
}

// A tree's lines as it has to be written: each different node once, in the order in which evaluation finishes them.
#[derive(Default)]
struct Order {
    nodes: Vec<Node>,
    lines: HashMap<String, usize>,
    met: HashMap<usize, usize>, // the line of a shared node, by its address
}

impl Order {
    fn line(&mut self, node: Node) -> usize {
        let mut text = String::new();
        write_node(&mut text, node);
        let next = self.nodes.len();
        let line = *self.lines.entry(text).or_insert(next);
        if line == next {
            self.nodes.push(node);
        }
        line
    }

    fn child(&mut self, child: &ArcIntern<Expression>) -> usize {
        if let Some(line) = self.met.get(&child.address()) {
            return *line;
        }
        let line = self.tree(child);
        self.met.insert(child.address(), line);
        line
    }

    fn tree(&mut self, tree: &Expression) -> usize {
        let node = match tree {
            Expression::Number(z) => {
                Node::Number(Complex64::new(f64::from_bits(bits(z.re)), f64::from_bits(bits(z.im))))
            }
            Expression::PiConstant() => Node::Pi,
            Expression::Variable(name) => Node::Variable(number_of(name)),
            Expression::Address(cell) => Node::Cell(number_of(&cell.name), cell.index as u32),
            Expression::FunctionCall(FunctionCallExpression { function, expression }) => {
                Node::Function(*function, self.child(expression))
            }
            Expression::Prefix(PrefixExpression { operator, expression }) => {
                Node::Prefix(*operator, self.child(expression))
            }
            Expression::Infix(InfixExpression { left, operator, right }) => {
                let (left, right) = (self.child(left), self.child(right));
                Node::Infix(*operator, left, right)
            }
        };
        self.line(node)
    }
}

pub fn in_order(tree: &Expression) -> Vec<Node> {
    let mut order = Order::default();
    order.tree(tree);
    order.nodes
}

pub fn field<T: std::str::FromStr>(text: &str) -> T
where
    T::Err: Debug,
{
    text.parse().expect("a number")
}

pub fn double(text: &str) -> f64 {
    f64::from_bits(u64::from_str_radix(text, 16).expect("sixteen digits"))
}

// The nodes of a listing that was written by the port.
pub fn read_back(text: &str) -> Option<Vec<Node>> {
    let mut nodes = Vec::new();
    for line in text.split_terminator('\n') {
        let fields: Vec<&str> = line.split('\t').collect();
        nodes.push(match fields[..] {
            ["n", re, im] => Node::Number(Complex64::new(double(re), double(im))),
            ["p"] => Node::Pi,
            ["v", v] => Node::Variable(field(v)),
            ["m", r, i] => Node::Cell(field(r), field(i)),
            ["f", name, c] => Node::Function(FUNCTIONS[place(&FUNCTION_NAMES, name)], field(c)),
            ["u", name, c] => Node::Prefix(PREFIXES[place(&PREFIX_NAMES, name)], field(c)),
            ["b", name, l, r] => Node::Infix(INFIXES[place(&INFIX_NAMES, name)], field(l), field(r)),
            _ => return None,
        });
    }
    Some(nodes)
}

// The same tree, number for number by its bits, NaNs as one.
pub fn identical(x: &Expression, y: &Expression) -> bool {
    match (x, y) {
        (Expression::Number(x), Expression::Number(y)) => bits(x.re) == bits(y.re) && bits(x.im) == bits(y.im),
        (Expression::FunctionCall(x), Expression::FunctionCall(y)) => {
            x.function == y.function && identical(&x.expression, &y.expression)
        }
        (Expression::Prefix(x), Expression::Prefix(y)) => {
            x.operator == y.operator && identical(&x.expression, &y.expression)
        }
        (Expression::Infix(x), Expression::Infix(y)) => {
            x.operator == y.operator && identical(&x.left, &y.left) && identical(&x.right, &y.right)
        }
        (x, y) => x == y,
    }
}
