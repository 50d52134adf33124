// Times adding to the store by the crate timed against the same work in Rust with two HashMaps: an add of a new
// node and of a stored one, at 100, 1000 and 4000 nodes. Rust is handed a node's fields, or an expression as the store
// here is. bench/run builds it; an argument asks for more rounds.
use std::{collections::HashSet, f64::consts::PI, hint::black_box, time::Instant};

#[path = "common/lent.rs"]
mod lent;
#[path = "common/packed.rs"]
mod packed;

const ROOM: usize = 4096;
const LARGEST: u64 = 1_000_000;
const DEEPEST: u64 = 64;
const SIZES: [usize; 3] = [100, 1000, 4000];
const ROUNDS: usize = 101; // at the least
const GROWTH: usize = 64; // the new nodes that are timed, the last of those that a store grows to
const FILLS: usize = 32; // of each side at each size in a round
const FINDS: usize = 8192; // likewise

unsafe extern "C" {
    fn timed_start(desk: *mut u64);
    fn timed_add(store: *mut [u64; 4], rows: usize, desk: *mut u64, code: u64, a: u64, b: u64) -> u64;
    fn timed_class(store: *const [u64; 4], rows: usize, i: usize) -> u64;
}

// A node by its fields: the number of its kind with eight times that of its operator; and the bits of a number's
// parts, a variable, a cell's region and index, or the nodes below.
#[derive(Clone, Copy, PartialEq, Eq, Hash)]
struct Node {
    code: u64,
    a: u64,
    b: u64,
}

// What is timed. An add to n nodes answers the node and the count of nodes then, or a refusal, packed.
trait Store {
    fn start(&mut self);
    fn add(&mut self, n: usize, node: Node) -> u64;
    fn class(&self, i: usize) -> u64;
}

type Here = lent::Store;

impl Store for Here {
    fn start(&mut self) {
        unsafe { timed_start(self.desk.as_mut_ptr()) }
    }

    // How many nodes stand is on the desk.
    #[inline(always)]
    fn add(&mut self, _: usize, node: Node) -> u64 {
        let Node { code, a, b } = node;
        unsafe { timed_add(self.rows.as_mut_ptr(), self.rows.len(), self.desk.as_mut_ptr(), code, a, b) }
    }

    fn class(&self, i: usize) -> u64 {
        unsafe { timed_class(self.rows.as_ptr(), self.rows.len(), i) }
    }
}

fn canonical(bits: u64) -> u64 {
    if f64::from_bits(bits).is_nan() { 0x7FF8_0000_0000_0000 } else { bits }
}

fn canonical_node(node: Node) -> Node {
    let Node { code, a, b } = node;
    if code % 8 == 1 { Node { code, a: canonical(a), b: canonical(b) } } else { node }
}

#[derive(Clone, Copy)]
enum Expression {
    Number(f64, f64),
    PiConstant,
    Variable(u16),
    Address(u16, u32),
    FunctionCall(u8, usize),
    Prefix(u8, usize),
    Infix(u8, usize, usize),
}

fn expression_of(node: Node) -> Expression {
    let Node { code, a, b } = node;
    let operator = (code / 8) as u8;
    match code % 8 {
        1 => Expression::Number(f64::from_bits(a), f64::from_bits(b)),
        2 => Expression::PiConstant,
        3 => Expression::Variable(a as u16),
        4 => Expression::Address(a as u16, b as u32),
        5 => Expression::FunctionCall(operator, a as usize),
        6 => Expression::Prefix(operator, a as usize),
        _ => Expression::Infix(operator, a as usize, b as usize),
    }
}

fn node_of(e: Expression) -> Node {
    let node = |kind, operator, a, b| Node { code: kind + 8 * operator as u64, a, b };
    match e {
        Expression::Number(re, im) => node(1, 0, canonical(re.to_bits()), canonical(im.to_bits())),
        Expression::PiConstant => node(2, 0, 0, 0),
        Expression::Variable(number) => node(3, 0, number as u64, 0),
        Expression::Address(region, index) => node(4, 0, region as u64, index as u64),
        Expression::FunctionCall(f, child) => node(5, f, child as u64, 0),
        Expression::Prefix(o, child) => node(6, o, child as u64, 0),
        Expression::Infix(o, left, right) => node(7, o, left as u64, right as u64),
    }
}

// A side of Rust: one map finds a node by its fields, the other a class by the fields with classes in place of nodes
// and of doubles. Neither grows: both have room for all from the beginning. What it is handed is made of a node
// outside of its add, which is never inlined: so an expression is really made, and matched on, as it is in timed_add.
macro_rules! side {
    ($name:ident, $handed:ty, $made:path, $node:path) => {
        mod $name {
            use super::*;
            use std::collections::{HashMap, hash_map::Entry};

            pub struct Store {
                room: usize,
                nodes: HashMap<Node, usize>,
                classes: HashMap<Node, usize>,
                size: Vec<u64>,
                depth: Vec<u64>,
                class: Vec<u64>,
            }

            fn unsigned_zero(bits: u64) -> u64 {
                if bits == 1 << 63 { 0 } else { bits }
            }

            impl Store {
                pub fn new(room: usize) -> Store {
                    let map = || HashMap::with_capacity(room);
                    let list = || Vec::with_capacity(room);
                    Store { room, nodes: map(), classes: map(), size: list(), depth: list(), class: list() }
                }

                #[inline(never)]
                fn add(&mut self, n: usize, handed: $handed) -> u64 {
                    let Node { code, a, b } = $node(handed);
                    let kind = code % 8;
                    let place = match self.nodes.entry(Node { code, a, b }) {
                        Entry::Occupied(at) => return packed::of_nodes(*at.get(), n),
                        Entry::Vacant(place) => place,
                    };
                    let (i, j) = (a as usize, b as usize);
                    let (size, depth) = match kind {
                        5 | 6 => (1 + self.size[i], 1 + self.depth[i]),
                        7 => (1 + self.size[i] + self.size[j], 1 + self.depth[i].max(self.depth[j])),
                        _ => (1, 1),
                    };
                    if size > LARGEST {
                        return packed::refusal(6);
                    }
                    if depth > DEEPEST {
                        return packed::refusal(7);
                    }
                    if n >= self.room {
                        return packed::refusal(8);
                    }
                    let key = match kind {
                        1 => Node { code, a: unsigned_zero(a), b: unsigned_zero(b) },
                        5 | 6 => Node { code, a: self.class[i], b },
                        7 => Node { code, a: self.class[i], b: self.class[j] },
                        _ => Node { code, a, b },
                    };
                    let class = *self.classes.entry(key).or_insert(n);
                    place.insert(n);
                    self.size.push(size);
                    self.depth.push(depth);
                    self.class.push(class as u64);
                    packed::of_nodes(n, n + 1)
                }
            }

            impl super::Store for Store {
                fn start(&mut self) {
                    self.nodes.clear();
                    self.classes.clear();
                    self.size.clear();
                    self.depth.clear();
                    self.class.clear();
                }

                #[inline(always)]
                fn add(&mut self, n: usize, node: Node) -> u64 {
                    Store::add(self, n, $made(node))
                }

                fn class(&self, i: usize) -> u64 {
                    self.class[i]
                }
            }
        }
    };
}

side!(rust, Node, std::convert::identity, canonical_node);
side!(again, Node, std::convert::identity, canonical_node);
side!(handed, Expression, expression_of, node_of);

// Marsaglia's xorshift of 64 bits, and the nodes that are drawn from it.
struct Random(u64);

impl Random {
    fn next(&mut self) -> u64 {
        self.0 ^= self.0 << 13;
        self.0 ^= self.0 >> 7;
        self.0 ^= self.0 << 17;
        self.0
    }

    fn below(&mut self, n: usize) -> u64 {
        (self.next() >> 11) % n as u64
    }

    // A multiple of an eighth of pi, a whole number or a decimal; the imaginary part is mostly a zero of either sign.
    fn number(&mut self) -> Node {
        let k = self.below(400) as f64 - 200.0;
        let re = [k * PI / 8.0, k, k / 100.0][self.below(3) as usize];
        let im = [k + 0.5, -0.0, 0.0, 0.0, 0.0, 0.0, 0.0, 0.0][self.below(8) as usize];
        Node { code: 1, a: re.to_bits(), b: im.to_bits() }
    }

    // In a hundred: 15 numbers, pi, 14 variables, 15 cells, 15 function calls, 8 prefixes and 32 infixes, on nodes
    // below n. The first nodes are leaves.
    fn node(&mut self, n: usize) -> Node {
        let node = |kind, operator, a, b| Node { code: kind + 8 * operator, a, b };
        match if n < 8 { self.below(45) } else { self.below(100) } {
            0..15 => self.number(),
            15 => node(2, 0, 0, 0),
            16..30 => node(3, 0, self.below(2000), 0),
            30..45 => node(4, 0, self.below(8), self.below(1000)),
            45..60 => node(5, 1 + self.below(5), self.below(n), 0),
            60..68 => node(6, 1 + self.below(2), self.below(n), 0),
            _ => node(7, 1 + self.below(5), self.below(n), self.below(n)),
        }
    }

    // Different nodes that are all stored, in the order of their storing.
    fn nodes(&mut self, count: usize) -> Vec<Node> {
        let (mut seen, mut nodes, mut store) = (HashSet::new(), Vec::new(), rust::Store::new(count));
        while nodes.len() < count {
            let node = self.node(nodes.len());
            if seen.insert(node) && packed::refused(store.add(nodes.len(), node)) == 0 {
                nodes.push(node);
            }
        }
        nodes
    }
}

// All sides give the same numbers, counts and classes: when the nodes are new, again, and where there is no room.
fn agree(nodes: &[Node], room: usize) {
    let (mut rust, mut again) = (rust::Store::new(room), again::Store::new(room));
    let (mut handed, mut here) = (handed::Store::new(room), Here::new(room));
    here.start();
    let mut sides: [&mut dyn Store; 4] = [&mut rust, &mut again, &mut handed, &mut here];
    let mut n = 0;
    for node in nodes.iter().chain(nodes) {
        let nodes_below = match node.code % 8 {
            5 | 6 => node.a + 1,
            7 => node.a.max(node.b) + 1,
            _ => 0,
        };
        if nodes_below as usize > n {
            continue;
        }
        let answers = sides.each_mut().map(|side| side.add(n, *node));
        assert!(answers == [answers[0]; 4], "they differ at {n} nodes: {answers:?}");
        if packed::refused(answers[0]) == 0 {
            n = packed::nodes(answers[0]);
            let classes = sides.each_ref().map(|side| side.class(n - 1));
            assert!(classes == [classes[0]; 4], "they differ at {n} nodes: {classes:?}");
        }
    }
    assert_eq!(n, room);
}

// Seconds for the last nodes of a store that grows to these. Not inlined: where the compiler unrolled the calls of one
// row and not of another, one side took 15 ns in the one and 28 in the other.
#[inline(never)]
fn growing(store: &mut impl Store, nodes: &[Node]) -> f64 {
    store.start();
    let (before, last) = nodes.split_at(nodes.len() - GROWTH);
    let mut n = 0;
    for node in before {
        n = packed::nodes(store.add(n, *node));
    }
    let start = Instant::now();
    for node in last {
        n = packed::nodes(store.add(n, *node));
    }
    let time = start.elapsed().as_secs_f64();
    assert_eq!(n, nodes.len());
    time
}

// Seconds for adding nodes that are stored in a store of n.
fn finding(store: &mut impl Store, n: usize, asked: &[Node]) -> f64 {
    let mut sum = 0;
    let start = Instant::now();
    for node in asked {
        sum += store.add(n, *node);
    }
    let time = start.elapsed().as_secs_f64();
    black_box(sum);
    time
}

fn quartiles(x: impl Iterator<Item = f64>) -> [f64; 3] {
    let mut sorted: Vec<f64> = x.collect();
    sorted.sort_by(f64::total_cmp);
    [1, 2, 3].map(|q| sorted[(sorted.len() - 1) * q / 4])
}

// Seconds an add, of each side at each size, in every round. A round times them all, in an order that changes.
struct Table(Vec<[[f64; 2]; 3]>);

impl Table {
    fn new(rounds: usize, mut time: impl FnMut(usize, usize) -> f64) -> Table {
        let mut table = vec![[[0.0; 2]; 3]; rounds];
        for (k, round) in table.iter_mut().enumerate() {
            for i in [k % 3, (k + 1) % 3, (k + 2) % 3] {
                for side in [k % 2, 1 - k % 2] {
                    round[i][side] = time(i, side);
                }
            }
        }
        Table(table)
    }

    // Stores that grow, of both sides.
    fn of_new(rounds: usize, nodes: &[Node], mut a: impl Store, mut b: impl Store) -> Table {
        Table::new(rounds, |i, side| {
            let grown = &nodes[..SIZES[i]];
            let once = |_| if side == 0 { growing(&mut a, grown) } else { growing(&mut b, grown) };
            (0..FILLS).map(once).sum::<f64>() / (FILLS * GROWTH) as f64
        })
    }

    // The same with other nodes each time: the processor seems to learn the order of nodes that come again and again. A
    // first growth, of `nodes`, is not counted: it brings the whole store into the cache.
    fn of_other(rounds: usize, nodes: &[Node], mut a: impl Store, mut b: impl Store) -> Table {
        let mut random = [0, 1].map(|_| Random(0xA076_1D64_78BD_642F));
        Table::new(rounds, |i, side| {
            let lists: Vec<Vec<Node>> = (0..FILLS).map(|_| random[side].nodes(SIZES[i])).collect();
            let mut once = |grown: &[Node]| if side == 0 { growing(&mut a, grown) } else { growing(&mut b, grown) };
            once(nodes);
            lists.iter().map(|grown| once(grown)).sum::<f64>() / (FILLS * GROWTH) as f64
        })
    }

    // Stores of each size, of both sides, that are asked at random.
    fn of_stored<A: Store, B: Store>(rounds: usize, nodes: &[Node], mut a: [A; 3], mut b: [B; 3]) -> Table {
        let mut r = Random(0xD1B5_4A32_D192_ED03);
        let asked = SIZES.map(|n| (0..FINDS).map(|_| nodes[r.below(n) as usize]).collect::<Vec<Node>>());
        for (i, n) in SIZES.into_iter().enumerate() {
            growing(&mut a[i], &nodes[..n]);
            growing(&mut b[i], &nodes[..n]);
        }
        Table::new(rounds, |i, side| {
            let (n, asked) = (SIZES[i], &asked[i]);
            let time = if side == 0 { finding(&mut a[i], n, asked) } else { finding(&mut b[i], n, asked) };
            time / FINDS as f64
        })
    }

    fn say(&self, name: &str, how: &str) {
        for (i, n) in SIZES.iter().enumerate() {
            let [rust, here] = [0, 1].map(|side| 1e9 * quartiles(self.0.iter().map(|t| t[i][side]))[1]);
            let [low, ratio, high] = quartiles(self.0.iter().map(|t| t[i][1] / t[i][0]));
            let row = format!("{name} at {n}{how}");
            println!("{row:<34}{rust:>9.2}{here:>9.2}{ratio:>9.3} [{low:.3}, {high:.3}]");
        }
    }

    fn say_flatness(&self, name: &str) {
        let of = |side: usize| {
            let [low, ratio, high] = quartiles(self.0.iter().map(|t| t[2][side] / t[0][side]));
            format!("{ratio:.2} [{low:.2}, {high:.2}]")
        };
        println!("{name}, 4000 against 100: Rust {}, here {}", of(0), of(1));
    }
}

fn main() {
    let rounds = std::env::args().nth(1).map_or(0, |n| n.parse().expect("a number of rounds")).max(ROUNDS);
    let nodes = Random(0x9E37_79B9_7F4A_7C15).nodes(ROOM);
    for room in [0, 1, 7, 100, 4000, ROOM] {
        agree(&nodes, room);
    }
    let (rust, again, here) = (|| rust::Store::new(ROOM), || again::Store::new(ROOM), || Here::new(ROOM));
    let (handed, from) = (|| handed::Store::new(ROOM), ", from expressions");
    println!("{:<34}{:>9}{:>9}{:>9} [quartiles]", "ns an add", "Rust", "here", "ratio");
    Table::of_new(rounds, &nodes, rust(), again()).say("null: new", "");
    Table::of_stored(rounds, &nodes, SIZES.map(|_| rust()), SIZES.map(|_| again())).say("null: stored", "");
    let new = Table::of_new(rounds, &nodes, rust(), here());
    let stored = Table::of_stored(rounds, &nodes, SIZES.map(|_| rust()), SIZES.map(|_| here()));
    new.say("new", "");
    stored.say("stored", "");
    Table::of_new(rounds, &nodes, handed(), here()).say("new", from);
    Table::of_stored(rounds, &nodes, SIZES.map(|_| handed()), SIZES.map(|_| here())).say("stored", from);
    Table::of_other(rounds, &nodes, rust(), here()).say("new", ", other nodes");
    new.say_flatness("new");
    stored.say_flatness("stored");
}
