// Simplifying as the rules say it, as plainly as can be, over the plain store: the result, the number of calls, which
// function values are asked for and which rows are used, what is refused, and how often each arm was taken.
use crate::arithmetic::{function_value, infix_value, negated, real};
use crate::rows::Rows;
use crate::store::{Store, children};
use crate::zero::{is_one, is_zero};
use num_complex::Complex64;
use oracle::expression::{ExpressionFunction, InfixOperator, PrefixOperator};
use oracle::nodes::Node;
use oracle::trace::{Asked, Asks, Operation};
use std::collections::{BTreeMap, BTreeSet, HashMap};
use std::f64::consts::PI;

// Why simplifying ends without a result.
#[derive(Clone, Copy, Debug, PartialEq, Eq)]
pub enum Stop {
    Refused(u64),
    Need(Asked),
}

impl From<u64> for Stop {
    fn from(number: u64) -> Self {
        Stop::Refused(number)
    }
}

type Found = Result<usize, Stop>;

// An arm's number and its case; what is no arm of an infix has number 0.
pub type Arm = (u8, &'static str);

// How often each arm was taken.
pub type Hits = BTreeMap<Arm, u64>;

const ARMS: u8 = 41;
const ENOUGH: u64 = 100; // hits of an arm

pub fn add_hits(sum: &mut Hits, hits: &Hits) {
    for (arm, n) in hits {
        *sum.entry(*arm).or_default() += n;
    }
}

fn hits_of(hits: &Hits, arm: u8) -> u64 {
    hits.iter().filter(|((a, _), _)| *a == arm).map(|(_, n)| n).sum()
}

pub fn all_hit(hits: &Hits) -> bool {
    (1..=ARMS).all(|arm| hits_of(hits, arm) >= ENOUGH)
}

pub fn print_hits(hits: &Hits) {
    for ((arm, case), n) in hits {
        println!("{n:>12}  {}{case}", if *arm == 0 { String::new() } else { format!("arm {arm} ") });
    }
    let (least, arm) = (1..=ARMS).map(|arm| (hits_of(hits, arm), arm)).min().expect("41 arms");
    println!("{least:>12}  hits of arm {arm}, the rarest");
}

pub struct Model<'a> {
    pub store: Store,
    rows: Option<&'a Rows>,      // those that a sheet has, or all
    pub used: BTreeSet<usize>,   // of a sheet's
    kept: HashMap<usize, usize>, // by class
    pub calls: u64,
    pub asks: Asks,
    pub hits: Hits,
    pub at_the_border: bool, // whether a number was tested that is too near T for the Rust's rounded norm
}

use InfixOperator::{Caret, Minus, Plus, Slash, Star};

impl<'a> Model<'a> {
    pub fn new(store: Store, rows: Option<&'a Rows>) -> Self {
        let (used, kept, hits, asks) = (BTreeSet::new(), HashMap::new(), Hits::new(), Asks::default());
        Self { store, rows, used, kept, calls: 0, asks, hits, at_the_border: false }
    }

    // Reads a listing and simplifies its last line.
    pub fn run(&mut self, lines: &[Node], limit: u64) -> Found {
        let read = self.store.read(lines)?;
        self.simplify(read[read.len() - 1], limit)
    }

    fn hit(&mut self, arm: u8, case: &'static str) {
        *self.hits.entry((arm, case)).or_default() += 1;
    }

    // Nodes that are stored.

    fn number(&mut self, z: Complex64) -> Found {
        Ok(self.store.add(Node::Number(z))?)
    }

    fn infix(&mut self, l: usize, op: InfixOperator, r: usize) -> Found {
        Ok(self.store.add(Node::Infix(op, l, r))?)
    }

    fn negation(&mut self, e: usize) -> Found {
        Ok(self.store.add(Node::Prefix(PrefixOperator::Minus, e))?)
    }

    // What a node is.

    fn same(&self, x: usize, y: usize) -> bool {
        self.store.class(x) == self.store.class(y)
    }

    fn value(&self, e: usize) -> Option<Complex64> {
        if let Node::Number(z) = self.store.node(e) { Some(z) } else { None }
    }

    fn inner(&self, e: usize) -> Option<usize> {
        if let Node::Prefix(PrefixOperator::Minus, inner) = self.store.node(e) { Some(inner) } else { None }
    }

    fn parts(&self, e: usize, wanted: InfixOperator) -> Option<(usize, usize)> {
        match self.store.node(e) {
            Node::Infix(op, l, r) if op == wanted => Some((l, r)),
            _ => None,
        }
    }

    fn zero(&mut self, e: usize) -> bool {
        let Some(z) = self.value(e) else { return false };
        let (is, border) = is_zero(z);
        self.at_the_border |= border;
        is
    }

    fn one(&mut self, e: usize) -> bool {
        let Some(z) = self.value(e) else { return false };
        let (is, border) = is_one(z);
        self.at_the_border |= border;
        is
    }

    // Function values.

    fn ask(&mut self, operation: Operation, x: Complex64, y: Complex64) -> Result<Complex64, Stop> {
        let asked = Asked::new(operation, x, y);
        self.asks.note(asked);
        let Some(rows) = self.rows else { return Ok(asked.value()) };
        let (number, value) = rows.find(asked).ok_or(Stop::Need(asked))?;
        self.used.insert(number);
        Ok(value)
    }

    // Simplifying.

    fn simplify(&mut self, e: usize, limit: u64) -> Found {
        self.calls += 1;
        if let Some(result) = self.kept.get(&self.store.class(e)).copied() {
            self.hit(0, "kept");
            return Ok(result);
        }
        let result = self.simplified(e, limit)?;
        self.kept.insert(self.store.class(e), result);
        Ok(result)
    }

    fn simplified(&mut self, e: usize, limit: u64) -> Found {
        match self.store.node(e) {
            Node::Pi => {
                self.hit(0, if limit == 0 { "pi at limit 0" } else { "pi" });
                self.number(real(PI))
            }
            _ if limit == 0 => {
                self.hit(0, "limit 0");
                Ok(e)
            }
            Node::Number(_) | Node::Variable(_) | Node::Cell(..) => {
                self.hit(0, "leaf");
                Ok(e)
            }
            Node::Function(function, x) => self.function(function, x, limit - 1),
            Node::Prefix(op, x) => self.prefix(op, x, limit - 1),
            Node::Infix(op, l, r) => {
                let l = self.simplify(l, limit - 1)?;
                let r = self.simplify(r, limit - 1)?;
                self.combined(l, op, r, (limit - 1).saturating_sub(1))
            }
        }
    }

    fn function(&mut self, function: ExpressionFunction, x: usize, limit: u64) -> Found {
        let x = self.simplify(x, limit)?;
        match self.value(x) {
            Some(z) => {
                self.hit(0, "function folded");
                let value = function_value(function, z, |o, x, y| self.ask(o, x, y))?;
                self.number(value)
            }
            None => {
                self.hit(0, "function rebuilt");
                Ok(self.store.add(Node::Function(function, x))?)
            }
        }
    }

    fn prefix(&mut self, op: PrefixOperator, x: usize, limit: u64) -> Found {
        let x = self.simplify(x, limit)?;
        if op == PrefixOperator::Plus {
            self.hit(0, "prefix +");
            return Ok(x);
        }
        if let Some(z) = self.value(x) {
            self.hit(0, "prefix - of a number");
            return self.number(negated(z));
        }
        if let Some(inner) = self.inner(x) {
            self.hit(0, "prefix - of a prefix -");
            return Ok(inner);
        }
        self.hit(0, "prefix - rebuilt");
        self.negation(x)
    }

    // A node that is stored and at once simplified.

    fn s_infix(&mut self, l: usize, op: InfixOperator, r: usize, limit: u64) -> Found {
        let node = self.infix(l, op, r)?;
        self.simplify(node, limit)
    }

    fn s_negation(&mut self, e: usize, limit: u64) -> Found {
        let node = self.negation(e)?;
        self.simplify(node, limit)
    }

    // The arms. l and r are simplified; `limit` is that of further calls.
    fn combined(&mut self, l: usize, op: InfixOperator, r: usize, limit: u64) -> Found {
        if let Some(found) = self.with_zero_and_one(l, op, r, limit) {
            return found;
        }
        if let (Some(x), Some(y)) = (self.value(l), self.value(r)) {
            self.hit(17, name(op));
            let value = infix_value(x, op, y, |o, x, y| self.ask(o, x, y))?;
            return self.number(value);
        }
        let groups = [Self::with_negations, Self::affine, Self::regrouped, Self::distributed, Self::with_quotients];
        for group in groups {
            if let Some(found) = group(self, l, op, r, limit) {
                return found;
            }
        }
        self.hit(41, name(op));
        self.infix(l, op, r)
    }

    // 1 to 16
    fn with_zero_and_one(&mut self, l: usize, op: InfixOperator, r: usize, limit: u64) -> Option<Found> {
        let not_a_number = Complex64::new(f64::NAN, 0.0);
        Some(match op {
            Plus if self.zero(l) => self.take(1, "", r),
            Plus if self.zero(r) => self.take(2, "", l),
            Minus if self.zero(l) => {
                self.hit(3, "");
                self.s_negation(r, limit)
            }
            Minus if self.zero(r) => self.take(4, "", l),
            Minus if self.same(l, r) => self.constant(5, "", real(0.0)),
            Star if self.zero(l) => self.constant(6, "0*r", real(0.0)),
            Star if self.zero(r) => self.constant(6, "l*0", real(0.0)),
            Star if self.one(l) => self.take(7, "", r),
            Star if self.one(r) => self.take(8, "", l),
            Slash if self.zero(l) => self.constant(9, "", real(0.0)),
            Slash if self.zero(r) => self.constant(10, "", not_a_number),
            Slash if self.one(r) => self.take(11, "", l),
            Slash if self.same(l, r) => self.constant(12, "", real(1.0)),
            Caret if self.zero(l) => self.constant(13, "", real(0.0)),
            Caret if self.zero(r) => self.constant(14, "", real(1.0)),
            Caret if self.one(l) => self.constant(15, "", real(1.0)),
            Caret if self.one(r) => self.take(16, "", l),
            _ => return None,
        })
    }

    fn take(&mut self, arm: u8, case: &'static str, e: usize) -> Found {
        self.hit(arm, case);
        Ok(e)
    }

    fn constant(&mut self, arm: u8, case: &'static str, z: Complex64) -> Found {
        self.hit(arm, case);
        self.number(z)
    }

    // 18 to 26
    fn with_negations(&mut self, l: usize, op: InfixOperator, r: usize, limit: u64) -> Option<Found> {
        Some(match (op, self.inner(l), self.inner(r)) {
            (Plus, _, Some(e)) => {
                self.hit(18, "");
                self.s_infix(l, Minus, e, limit)
            }
            (Plus, Some(e), _) => {
                self.hit(19, "");
                self.s_infix(r, Minus, e, limit)
            }
            (Minus, _, Some(e)) => {
                self.hit(20, "");
                self.s_infix(l, Plus, e, limit)
            }
            (Minus, Some(e), _) => self.negated_difference(l, r, e, limit),
            (Star | Slash, Some(a), Some(b)) => {
                self.hit(22, name(op));
                self.s_infix(a, op, b, limit)
            }
            (Slash, _, Some(e)) if self.same(l, e) => self.constant(23, "", negated(real(1.0))),
            (Slash, Some(e), _) if self.same(e, r) => self.constant(24, "", negated(real(1.0))),
            (Star | Slash, _, Some(e)) => self.negation_to_the_left(l, op, r, e, limit),
            (Star | Slash, Some(e), _) => self.negation_to_the_right(l, op, r, e, limit),
            _ => return None,
        })
    }

    fn negated_difference(&mut self, l: usize, r: usize, e: usize, limit: u64) -> Found {
        self.hit(21, "");
        let first = self.infix(l, Minus, r)?;
        let sum = self.s_infix(e, Plus, r, limit)?;
        let second = self.s_negation(sum, limit)?;
        self.min(first, second)
    }

    fn negation_to_the_left(&mut self, l: usize, op: InfixOperator, r: usize, e: usize, limit: u64) -> Found {
        self.hit(25, name(op));
        let first = self.infix(l, Star, r)?;
        let negated = self.s_negation(l, limit)?;
        let second = self.s_infix(negated, op, e, limit)?;
        self.min(first, second)
    }

    fn negation_to_the_right(&mut self, l: usize, op: InfixOperator, r: usize, e: usize, limit: u64) -> Found {
        self.hit(26, name(op));
        let first = self.infix(l, Star, r)?;
        let negated = self.s_negation(r, limit)?;
        let second = self.s_infix(e, op, negated, limit)?;
        self.min(first, second)
    }

    fn min(&mut self, first: usize, second: usize) -> Found {
        let is_second = self.store.size(second) < self.store.size(first);
        self.hit(0, if is_second { "min: the second" } else { "min: the first" });
        Ok(if is_second { second } else { first })
    }

    // 27 to 29
    fn affine(&mut self, l: usize, op: InfixOperator, r: usize, limit: u64) -> Option<Found> {
        if op != Plus {
            return None;
        }
        if let (Some((ax, b)), Some((ax_, b_))) = (self.parts(l, Plus), self.parts(r, Plus)) {
            if let Some((case, a, a_, x)) = self.shared_factor(ax, ax_) {
                return Some(self.sum_of_lines(case, [a, a_, x, b, b_], limit));
            }
        }
        if let (Some((a, x)), Some((b, x_))) = (self.parts(l, Star), self.parts(r, Star)) {
            if self.same(x, x_) {
                return Some(self.sum_of_multiples(a, b, x, limit));
            }
        }
        if let (Some((x, a)), Some((x_, b))) = (self.parts(l, Plus), self.parts(r, Plus)) {
            if self.same(x, x_) {
                return Some(self.sum_with_twice(x, a, b, limit));
            }
        }
        None
    }

    // The other factors and the shared one.
    fn shared_factor(&self, ax: usize, ax_: usize) -> Option<(&'static str, usize, usize, usize)> {
        let ((p, q), (p_, q_)) = (self.parts(ax, Star)?, self.parts(ax_, Star)?);
        if self.same(p, p_) {
            Some(("p=p'", q, q_, p))
        } else if self.same(p, q_) {
            Some(("p=q'", q, p_, p))
        } else if self.same(q, p_) {
            Some(("q=p'", p, q_, q))
        } else if self.same(q, q_) {
            Some(("q=q'", p, p_, q_))
        } else {
            None
        }
    }

    fn sum_of_lines(&mut self, case: &'static str, [a, a_, x, b, b_]: [usize; 5], limit: u64) -> Found {
        self.hit(27, case);
        let factors = self.s_infix(a, Plus, a_, limit)?;
        let rests = self.s_infix(b, Plus, b_, limit)?;
        let multiple = self.s_infix(factors, Star, x, limit)?;
        self.s_infix(multiple, Plus, rests, limit)
    }

    fn sum_of_multiples(&mut self, a: usize, b: usize, x: usize, limit: u64) -> Found {
        self.hit(28, "");
        let sum = self.s_infix(a, Plus, b, limit)?;
        self.s_infix(sum, Star, x, limit)
    }

    fn sum_with_twice(&mut self, x: usize, a: usize, b: usize, limit: u64) -> Found {
        self.hit(29, "");
        let two = self.number(real(2.0))?;
        let twice = self.s_infix(two, Star, x, limit)?;
        let sum = self.s_infix(a, Plus, b, limit)?;
        self.s_infix(twice, Plus, sum, limit)
    }

    // 30 to 32
    fn regrouped(&mut self, l: usize, op: InfixOperator, r: usize, limit: u64) -> Option<Found> {
        if op == Caret {
            return None;
        }
        if let Some((b, c)) = self.parts(r, op) {
            return Some(self.regrouped_right(l, op, r, (b, c), limit));
        }
        let (a, b) = self.parts(l, op)?;
        Some(self.regrouped_left(l, op, r, (a, b), limit))
    }

    fn regrouped_right(&mut self, l: usize, op: InfixOperator, r: usize, (b, c): (usize, usize), limit: u64) -> Found {
        let (arm, inner_op, inside, outside) = match op {
            Minus => (31, Plus, c, b),
            Slash => (31, Star, c, b),
            _ => (30, op, b, c),
        };
        self.hit(arm, name(op));
        let first = self.infix(l, op, r)?;
        let inner = self.s_infix(l, inner_op, inside, limit)?;
        let second = self.s_infix(inner, op, outside, limit)?;
        self.min(first, second)
    }

    fn regrouped_left(&mut self, l: usize, op: InfixOperator, r: usize, (a, b): (usize, usize), limit: u64) -> Found {
        self.hit(32, name(op));
        let first = self.infix(l, op, r)?;
        let other = match op {
            Minus => Plus,
            Slash => Star,
            _ => op,
        };
        let inner = self.s_infix(b, op, r, limit)?;
        let second = self.s_infix(a, other, inner, limit)?;
        self.min(first, second)
    }

    // 33 and 34
    fn distributed(&mut self, l: usize, op: InfixOperator, r: usize, limit: u64) -> Option<Found> {
        if op != Star {
            return None;
        }
        if let Some((b, c)) = self.parts(r, Plus) {
            return Some(self.sum_of_products(33, (l, r), [(l, b), (l, c)], limit));
        }
        let (a, b) = self.parts(l, Plus)?;
        Some(self.sum_of_products(34, (l, r), [(a, r), (b, r)], limit))
    }

    fn sum_of_products(
        &mut self,
        arm: u8,
        (l, r): (usize, usize),
        [(a, b), (c, d)]: [(usize, usize); 2],
        limit: u64,
    ) -> Found {
        self.hit(arm, "");
        let first = self.infix(l, Star, r)?;
        let left = self.s_infix(a, Star, b, limit)?;
        let right = self.s_infix(c, Star, d, limit)?;
        let second = self.s_infix(left, Plus, right, limit)?;
        self.min(first, second)
    }

    // 35 to 40
    fn with_quotients(&mut self, l: usize, op: InfixOperator, r: usize, limit: u64) -> Option<Found> {
        match op {
            Slash => self.quotient_of_product(l, r, limit),
            Star => self.product_with_quotient(l, r),
            _ => None,
        }
    }

    fn quotient_of_product(&mut self, l: usize, r: usize, limit: u64) -> Option<Found> {
        let (above, below) = (self.parts(l, Star), self.parts(r, Star));
        if let Some((m, n)) = above {
            if self.same(m, r) {
                return Some(self.take(35, "(s*o)/s", n));
            }
            if self.same(n, r) {
                return Some(self.take(35, "(o*s)/s", m));
            }
        }
        if let Some((m, n)) = below {
            if self.same(l, m) {
                return Some(self.reciprocal("l/(l*o)", n, limit));
            }
            if self.same(l, n) {
                return Some(self.reciprocal("l/(o*l)", m, limit));
            }
        }
        if let Some((m, n)) = above {
            return Some(self.factor_kept(l, r, (m, n), limit));
        }
        let (m, n) = below?;
        Some(self.divided_twice(l, r, (m, n), limit))
    }

    fn reciprocal(&mut self, case: &'static str, e: usize, limit: u64) -> Found {
        self.hit(36, case);
        let one = self.number(real(1.0))?;
        self.s_infix(one, Slash, e, limit)
    }

    fn factor_kept(&mut self, l: usize, r: usize, (m, n): (usize, usize), limit: u64) -> Found {
        self.hit(37, "");
        let first = self.infix(l, Slash, r)?;
        let quotient = self.s_infix(n, Slash, r, limit)?;
        let second = self.s_infix(m, Star, quotient, limit)?;
        self.min(first, second)
    }

    fn divided_twice(&mut self, l: usize, r: usize, (m, n): (usize, usize), limit: u64) -> Found {
        self.hit(38, "");
        let first = self.infix(l, Slash, r)?;
        let quotient = self.s_infix(l, Slash, m, limit)?;
        let second = self.s_infix(quotient, Slash, n, limit)?;
        self.min(first, second)
    }

    fn product_with_quotient(&mut self, l: usize, r: usize) -> Option<Found> {
        if let Some((o, _)) = self.parts(l, Slash).filter(|(_, s)| self.same(*s, r)) {
            return Some(self.take(39, "", o));
        }
        let (o, _) = self.parts(r, Slash).filter(|(_, s)| self.same(l, *s))?;
        Some(self.take(40, "", o))
    }

    // The lines of a stored tree as it is written.
    pub fn lines(&self, root: usize) -> Vec<Node> {
        let mut order = Order { store: &self.store, line: HashMap::new(), nodes: vec![] };
        order.visit(root);
        order.nodes
    }
}

struct Order<'a> {
    store: &'a Store,
    line: HashMap<usize, usize>,
    nodes: Vec<Node>,
}

impl Order<'_> {
    fn visit(&mut self, at: usize) {
        if self.line.contains_key(&at) {
            return;
        }
        let node = self.store.node(at);
        children(node).into_iter().for_each(|c| self.visit(c));
        self.nodes.push(crate::store::with_children(node, |c| self.line[&c]));
        self.line.insert(at, self.nodes.len() - 1);
    }
}

fn name(op: InfixOperator) -> &'static str {
    match op {
        Plus => "+",
        Minus => "-",
        Star => "*",
        Slash => "/",
        Caret => "^",
    }
}
