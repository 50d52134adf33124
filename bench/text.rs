// Times the texts of the crate timed against plain Rust (text/plain.rs) on the same bytes: reading a listing of 1024 lines and
// a sheet of 1536, and writing a listing. bench/run builds it; an argument asks for more rounds.
use lent::{Store, TABLE};
use std::{
    cell::RefCell,
    collections::{BTreeSet, HashSet, VecDeque, hash_map::RandomState},
    f64::consts::PI,
    fmt::Write,
    hash::{BuildHasherDefault, Hasher},
    hint::black_box,
    iter,
};

#[path = "text/plain.rs"]
mod again;
#[path = "common/lent.rs"]
mod lent;
#[path = "common/packed.rs"]
mod packed;
#[path = "text/plain.rs"]
mod rust;

const ROOM: usize = 4096;
const OUT: usize = 1 << 16; // more bytes than a listing of 1024 lines has
const LINES: u64 = 1024;
const LARGEST: u64 = 1_000_000;
const DEEPEST: u64 = 64;
const VARIABLES: usize = 256;
const CELLS: usize = 1024;
const FUNCTION_ROWS: usize = 256;
const FUNCTIONS: [&[u8]; 5] = [b"sin", b"cos", b"exp", b"sqrt", b"cis"];
const OPERATIONS: [&[u8]; 5] = [b"+", b"-", b"*", b"/", b"^"];
const ROW_NAMES: [&[u8]; 5] = [b"sin", b"cos", b"exp", b"sqrt", b"pow"];
const ROUNDS: usize = 101; // at the least
const TEXTS: usize = 16; // of each round

unsafe extern "C" {
    fn timed_read_listing(
        text: *const u8, text_len: usize, store: *mut [u64; 4], rows: usize, desk: *mut u64, table: *mut u64,
        table_len: usize,
    ) -> u64;
    fn timed_read_lines(text: *const u8, text_len: usize, table: *mut u64, table_len: usize) -> u64;
    fn timed_read_sheet(text: *const u8, text_len: usize, table: *mut u64, table_len: usize) -> u64;
    fn timed_write_listing(
        store: *mut [u64; 4], rows: usize, root: usize, table: *mut u64, table_len: usize, out: *mut u8,
        out_len: usize,
    ) -> u64;
    safe fn clock_gettime(clock: i32, seconds_and_nanoseconds: &mut [i64; 2]) -> i32;
}

// A node by its fields: the number of its kind with eight times that of its operator; and the bits of a number's
// parts, a variable, a cell's region and index, or the nodes below.
#[derive(Clone, Copy, PartialEq, Eq, Hash, Debug)]
struct Node {
    code: u64,
    a: u64,
    b: u64,
}

// A refusal's number, and the line that it carries.
type Refusal = (u64, u64);

// The rows of a sheet. A function has a number from 1 on, four words of operands and two of its value.
struct Sheet {
    variables: Vec<(u64, [u64; 2])>,
    cells: Vec<(u64, u64, u64)>,
    functions: Vec<(u64, [u64; 6])>,
}

impl Sheet {
    fn new() -> Sheet {
        let (variables, cells) = (Vec::with_capacity(VARIABLES), Vec::with_capacity(CELLS));
        Sheet { variables, cells, functions: Vec::with_capacity(FUNCTION_ROWS) }
    }
}

// A hasher of one multiplication a word, in place of std's.
#[derive(Default)]
struct Quick(u64);

impl Hasher for Quick {
    fn write(&mut self, bytes: &[u8]) {
        bytes.iter().for_each(|b| self.write_u64(u64::from(*b)));
    }

    fn write_u64(&mut self, word: u64) {
        self.0 = (self.0.rotate_left(26) ^ word).wrapping_mul(0xF135_7AEA_2E62_A9C5);
    }

    fn finish(&self) -> u64 {
        self.0.rotate_left(26)
    }
}

type Plain = rust::Store<RandomState>;
type PlainAgain = again::Store<RandomState>;
type PlainQuick = rust::Store<BuildHasherDefault<Quick>>;

// What is lent to the crates here besides an output: a store and a table. What the table holds at first does not matter.
struct Table(Vec<u64>);
struct Here(Store, Table);

fn answer(r: u64) -> Result<u64, Refusal> {
    if packed::refused(r) == 0 { Ok(r) } else { Err((packed::refused(r), packed::place(r))) }
}

fn node(store: &Store, i: usize) -> Node {
    let [_, tag, a, b] = store.rows[i];
    Node { code: tag % 64, a, b }
}

impl Table {
    fn new() -> Table {
        Table(vec![u64::MAX; TABLE])
    }

    // The count of lines; three words are the node of each.
    fn read_lines(&mut self, text: &[u8]) -> Result<u64, Refusal> {
        answer(unsafe { timed_read_lines(text.as_ptr(), text.len(), self.0.as_mut_ptr(), self.0.len()) })
    }

    // The counts of variables, cells and functions, packed.
    fn read_sheet(&mut self, text: &[u8]) -> Result<u64, Refusal> {
        answer(unsafe { timed_read_sheet(text.as_ptr(), text.len(), self.0.as_mut_ptr(), self.0.len()) })
    }

    // The count of bytes. The links of the rows are used up; what they hold does not matter here.
    fn write_listing(&mut self, store: &mut Store, root: usize, out: &mut [u8]) -> Result<u64, Refusal> {
        let (rows, table) = (&mut store.rows, &mut self.0);
        answer(unsafe {
            timed_write_listing(
                rows.as_mut_ptr(), rows.len(), root, table.as_mut_ptr(), table.len(), out.as_mut_ptr(), out.len(),
            )
        })
    }
}

impl Here {
    fn new() -> Here {
        Here(Store::new(ROOM), Table::new())
    }

    // The root's node and the count of nodes, packed.
    fn read_listing(&mut self, text: &[u8]) -> Result<u64, Refusal> {
        let (Store { rows, desk }, table) = (&mut self.0, &mut self.1.0);
        answer(unsafe {
            timed_read_listing(
                text.as_ptr(), text.len(), rows.as_mut_ptr(), rows.len(), desk.as_mut_ptr(), table.as_mut_ptr(),
                table.len(),
            )
        })
    }
}

// Marsaglia's xorshift of 64 bits, and the texts that are drawn from it.
struct Random(u64);

impl Random {
    fn next(&mut self) -> u64 {
        self.0 ^= self.0 << 13;
        self.0 ^= self.0 >> 7;
        self.0 ^= self.0 << 17;
        self.0
    }

    fn below(&mut self, n: usize) -> u64 {
        (self.next() >> 11) % n as u64
    }

    // From -1 to 1, nearly always with digits of all kinds.
    fn double(&mut self) -> u64 {
        (self.below(1 << 53) as f64 / (1u64 << 52) as f64 - 1.0).to_bits()
    }

    fn number(&mut self) -> Node {
        Node { code: 1, a: self.double(), b: self.double() }
    }

    // A multiple of an eighth of pi, a whole number or a decimal; the imaginary part is mostly a zero of either sign.
    fn usual_number(&mut self) -> Node {
        let k = self.below(400) as f64 - 200.0;
        let re = [k * PI / 8.0, k, k / 100.0][self.below(3) as usize];
        let im = [k + 0.5, -0.0, 0.0, 0.0, 0.0, 0.0, 0.0, 0.0][self.below(8) as usize];
        Node { code: 1, a: re.to_bits(), b: im.to_bits() }
    }

    // In 45: 15 numbers, pi, 14 variables, 15 cells.
    fn leaf(&mut self) -> Node {
        match self.below(45) {
            0..15 => self.usual_number(),
            15 => Node { code: 2, a: 0, b: 0 },
            16..30 => Node { code: 3, a: self.below(2000), b: 0 },
            _ => Node { code: 4, a: self.below(8), b: self.below(1000) },
        }
    }

    // In 55: 15 function calls, 8 prefixes, 32 infixes.
    fn parent(&mut self, a: u64, b: u64) -> Node {
        match self.below(55) {
            0..15 => Node { code: 5 + 8 * (1 + self.below(5)), a, b: 0 },
            15..23 => Node { code: 6 + 8 * (1 + self.below(2)), a, b: 0 },
            _ => Node { code: 7 + 8 * (1 + self.below(5)), a, b },
        }
    }

    // Lines of all kinds, in a hundred 45 leaves, on lines before at random; or of numbers alone.
    fn mixed(&mut self) -> Vec<u8> {
        let mut lines = Distinct::default();
        while lines.nodes.len() < LINES as usize {
            let n = lines.nodes.len();
            let node = if n < 8 || self.below(100) < 45 {
                self.leaf()
            } else {
                let (a, b) = (self.below(n), self.below(n));
                self.parent(a, b)
            };
            lines.push(node, LARGEST, DEEPEST);
        }
        written(&lines.nodes)
    }

    fn numbers(&mut self) -> Vec<u8> {
        let mut lines = Distinct::default();
        while lines.nodes.len() < LINES as usize {
            lines.push(self.number(), 1, 1);
        }
        written(&lines.nodes)
    }

    // Lines that the last reaches all. What is not yet an operand is joined in pairs at the end.
    fn tree(&mut self, leaf: fn(&mut Random) -> Node, leaves: u64) -> Vec<u8> {
        let (mut lines, mut open) = (Distinct::default(), VecDeque::new());
        while lines.nodes.len() + open.len() <= LINES as usize {
            let n = lines.nodes.len();
            if n < 8 || n + open.len() < LINES as usize && self.below(100) < leaves {
                if lines.push(leaf(self), 1, 1) {
                    open.push_back(n as u64);
                }
                continue;
            }
            let (at, any) = (self.below(open.len()) as usize, self.below(n));
            let node = self.parent(open[at], any);
            if lines.push(node, 1000, 32) {
                open[at] = n as u64;
            }
        }
        while let (Some(a), Some(b)) = (open.pop_front(), open.pop_front()) {
            open.push_back(lines.nodes.len() as u64);
            assert!(lines.push(Node { code: 7 + 8 * (1 + self.below(5)), a, b }, LARGEST, DEEPEST));
        }
        written(&lines.nodes)
    }

    fn mixed_tree(&mut self) -> Vec<u8> {
        self.tree(Random::leaf, 40)
    }

    // As many numbers as there can be: half of the lines.
    fn number_tree(&mut self) -> Vec<u8> {
        self.tree(Random::number, 100)
    }

    fn sheet(&mut self) -> Vec<u8> {
        let (mut variables, mut cells) = (BTreeSet::new(), BTreeSet::new());
        while variables.len() < VARIABLES {
            variables.insert(self.below(65536));
        }
        while cells.len() < CELLS {
            cells.insert((self.below(8), self.below(10000)));
        }
        let mut text = String::new();
        for v in variables {
            writeln!(text, "v\t{v}\t{:016X}\t{:016X}", self.double(), self.double()).unwrap();
        }
        for (region, index) in cells {
            writeln!(text, "m\t{region}\t{index}\t{:016X}", self.double()).unwrap();
        }
        for _ in 0..FUNCTION_ROWS {
            let k = self.below(5) as usize;
            write!(text, "t\t{}", str::from_utf8(ROW_NAMES[k]).unwrap()).unwrap();
            for field in 0..6 {
                let bits = if k < 4 && (field == 2 || field == 3) { 0 } else { self.double() };
                write!(text, "\t{bits:016X}").unwrap();
            }
            text.push('\n');
        }
        text.into_bytes()
    }
}

// Different nodes within a size and a depth.
#[derive(Default)]
struct Distinct {
    nodes: Vec<Node>,
    measures: Vec<(u64, u64)>,
    seen: HashSet<Node>,
}

impl Distinct {
    fn push(&mut self, node: Node, largest: u64, deepest: u64) -> bool {
        let below = |i: u64| self.measures[i as usize];
        let (size, depth) = match node.code % 8 {
            5 | 6 => (1 + below(node.a).0, 1 + below(node.a).1),
            7 => (1 + below(node.a).0 + below(node.b).0, 1 + below(node.a).1.max(below(node.b).1)),
            _ => (1, 1),
        };
        let is_taken = size <= largest && depth <= deepest && self.seen.insert(node);
        if is_taken {
            self.nodes.push(node);
            self.measures.push((size, depth));
        }
        is_taken
    }
}

// The nodes in the order in which they stand.
fn written(nodes: &[Node]) -> Vec<u8> {
    let mut text = String::new();
    for Node { code, a, b } in nodes {
        let name = |names: [&'static [u8]; 5]| str::from_utf8(names[(code / 8) as usize - 1]).unwrap();
        match code % 8 {
            1 => writeln!(text, "n\t{a:016X}\t{b:016X}"),
            2 => writeln!(text, "p"),
            3 => writeln!(text, "v\t{a}"),
            4 => writeln!(text, "m\t{a}\t{b}"),
            5 => writeln!(text, "f\t{}\t{a}", name(FUNCTIONS)),
            6 => writeln!(text, "u\t{}\t{a}", name(OPERATIONS)),
            _ => writeln!(text, "b\t{}\t{a}\t{b}", name(OPERATIONS)),
        }
        .unwrap();
    }
    text.into_bytes()
}

// All sides read the same: the same root and nodes, or the same refusal; and write the same bytes.
fn agree_on_listing(text: &[u8]) {
    let (mut plain, mut again, mut quick, mut here) = (Plain::new(), PlainAgain::new(), PlainQuick::new(), Here::new());
    let read = plain.read_listing(text);
    assert_eq!((read, &plain.nodes), (again.read_listing(text), &again.nodes));
    assert_eq!((read, &plain.nodes), (quick.read_listing(text), &quick.nodes));
    let n = plain.nodes.len();
    assert_eq!(read.map(|root| packed::of_nodes(root, n)), here.read_listing(text));
    if let Ok(root) = read {
        (0..n).for_each(|i| assert_eq!(plain.nodes[i], node(&here.0, i)));
        let (mut writer, mut writer_again, mut out) = (rust::Writer::new(), again::Writer::new(), vec![b'#'; OUT]);
        let count = writer.write_listing(&plain.nodes, root);
        assert_eq!((count, &writer.out), (writer_again.write_listing(&plain.nodes, root), &writer_again.out));
        assert_eq!(count.map(|n| n as u64), here.1.write_listing(&mut here.0, root, &mut out));
        let count = writer.out.len();
        assert!(writer.out == out[..count] && out[count..].iter().all(|b| *b == b'#'));
        assert_eq!(here.1.write_listing(&mut here.0, root, &mut out[..count - 1]), Err((13, 0)));
    }
    let mut nodes = Vec::new();
    let lines = rust::read_lines(text, &mut nodes).map(|_| nodes.len() as u64);
    assert_eq!(lines, here.1.read_lines(text));
    let words = nodes.iter().flat_map(|Node { code, a, b }| [*code, *a, *b]);
    assert!(words.eq(here.1.0[..3 * nodes.len()].iter().copied()));
}

// The same rows, or the same refusal.
fn agree_on_sheet(text: &[u8]) {
    let (mut sheet, mut sheet_again, mut table) = (Sheet::new(), Sheet::new(), Table::new());
    let read = rust::read_sheet(text, &mut sheet);
    assert_eq!(read, again::read_sheet(text, &mut sheet_again));
    let Sheet { variables, cells, functions } = sheet;
    let counts = packed::of_rows([variables.len(), cells.len(), functions.len()]);
    assert_eq!(read.map(|_| counts), table.read_sheet(text));
    if read.is_ok() {
        let words = variables.iter().flat_map(|(v, [re, im])| [*v, *re, *im]);
        assert!(words.eq(table.0[..3 * variables.len()].iter().copied()));
        let words = cells.iter().flat_map(|(region, index, real)| [(region << 32) + index, *real]);
        assert!(words.eq(table.0[768..][..2 * cells.len()].iter().copied()));
        let words = functions.iter().flat_map(|(name, [a, b, c, d, e, f])| [*name, *a, *b, *c, *d, *e, *f]);
        // of a row's first word the name alone: the rest is the index
        let rows = table.0[2816..][..7 * functions.len()].chunks(7);
        assert!(words.eq(rows.flat_map(|row| iter::once(row[0] % 8).chain(row[1..].iter().copied()))));
    }
}

// Texts with a byte more, a byte less, another byte or an early end.
fn agree_on_spoilt(r: &mut Random, text: &[u8], agree: fn(&[u8])) {
    const BYTES: &[u8] = b"\t\n\r 00112233445566778899ABCDEF7Fabcdefnpvmfubst+-*/^:@G\x00\xFF";
    for _ in 0..2000 {
        let (at, byte) = (r.below(text.len()) as usize, BYTES[r.below(BYTES.len()) as usize]);
        let mut spoilt = text.to_vec();
        match r.below(4) {
            0 => drop(spoilt.remove(at)),
            1 => spoilt.truncate(at),
            2 => spoilt.insert(at, byte),
            _ => spoilt[at] = byte,
        }
        agree(&spoilt);
    }
}

// This thread's processor time in seconds: Linux's CLOCK_THREAD_CPUTIME_ID.
fn now() -> f64 {
    let mut t = [0, 0];
    assert_eq!(clock_gettime(3, &mut t), 0);
    t[0] as f64 + t[1] as f64 * 1e-9
}

fn quartiles(x: impl Iterator<Item = f64>) -> [f64; 3] {
    let mut sorted: Vec<f64> = x.collect();
    sorted.sort_by(f64::total_cmp);
    [1, 2, 3].map(|q| sorted[(sorted.len() - 1) * q / 4])
}

// A text, and its tree as both sides have it.
struct Tree {
    text: Vec<u8>,
    nodes: Vec<Node>,
    here: RefCell<Store>,
    root: usize,
}

impl Tree {
    fn new(text: Vec<u8>) -> Tree {
        let (mut plain, mut here) = (Plain::new(), Here::new());
        let root = plain.read_listing(&text).expect("a listing");
        here.read_listing(&text).expect("a listing");
        Tree { text, nodes: plain.nodes, here: RefCell::new(here.0), root }
    }
}

// Both sides go through the texts of a round once before and once in time, each first in every other round. Every round
// has texts of its own: the processor learns those that come again and again.
fn row<T>(
    name: &str, rounds: usize, draw: impl Fn(&mut Random) -> T, text: impl Fn(&T) -> &[u8],
    mut rust: impl FnMut(&T) -> bool, mut here: impl FnMut(&T) -> bool,
) {
    let mut random = Random(0xA076_1D64_78BD_642F);
    let mut times = vec![[0.0; 2]; rounds];
    for (k, time) in times.iter_mut().enumerate() {
        let drawn: Vec<T> = (0..TEXTS).map(|_| draw(&mut random)).collect();
        let bytes: usize = drawn.iter().map(|t| text(t).len()).sum();
        assert!(drawn.iter().all(|t| rust(t) && here(t)));
        for side in [k % 2, 1 - k % 2] {
            let start = now();
            let is_ok = drawn.iter().all(|t| if side == 0 { rust(t) } else { here(t) });
            time[side] = (now() - start) / bytes as f64;
            assert!(black_box(is_ok));
        }
    }
    let [r, h] = [0, 1].map(|side| 1e-6 / quartiles(times.iter().map(|t| t[side]))[1]);
    let [low, ratio, high] = quartiles(times.iter().map(|t| t[1] / t[0]));
    println!("{name:<34}{r:>9.1}{h:>9.1}{ratio:>9.3} [{low:.3}, {high:.3}]");
}

fn main() {
    let rounds = std::env::args().nth(1).map_or(0, |n| n.parse().expect("a number of rounds")).max(ROUNDS);
    let mut r = Random(0x9E37_79B9_7F4A_7C15);
    for text in [r.mixed(), r.numbers(), r.mixed_tree(), r.number_tree()] {
        assert_eq!(text.iter().filter(|b| **b == b'\n').count(), LINES as usize);
        agree_on_listing(&text);
        agree_on_listing(&[&text[..], b"p\n"].concat());
        agree_on_spoilt(&mut r, &text, agree_on_listing);
    }
    let text = r.sheet();
    agree_on_sheet(&text);
    agree_on_spoilt(&mut r, &text, agree_on_sheet);
    for line in ["v\t0", "m\t0\t0", "t\tsin\t0\t0\t0\t0\t0"] {
        agree_on_sheet(&[&text[..], line.replace("\t0", "\t0000000000000000").as_bytes(), b"\n"].concat());
    }

    println!("{:<34}{:>9}{:>9}{:>9} [quartiles]", "MB/s", "Rust", "here", "ratio");
    let (mixed, numbers, sheet) = (Random::mixed, Random::numbers, Random::sheet);
    macro_rules! listing {
        ($name:expr, $draw:expr, $rust:ty, $here:ty) => {{
            let (mut rust, mut here) = (<$rust>::new(), <$here>::new());
            let (rust, here) = (|t: &Vec<u8>| rust.read_listing(t).is_ok(), |t: &Vec<u8>| here.read_listing(t).is_ok());
            row($name, rounds, $draw, |t| t, rust, here);
        }};
    }
    listing!("null: read mixed", mixed, Plain, PlainAgain);
    listing!("null: read numbers", numbers, Plain, PlainAgain);
    listing!("read mixed", mixed, Plain, Here);
    listing!("read numbers", numbers, Plain, Here);
    listing!("read mixed, quick hasher", mixed, PlainQuick, Here);
    listing!("read numbers, quick hasher", numbers, PlainQuick, Here);

    let (mut a, mut b, mut table) = (Vec::with_capacity(ROOM), Vec::with_capacity(ROOM), Table::new());
    let mut lines = |t: &Vec<u8>| rust::read_lines(t, &mut a).is_ok();
    row("null: read mixed, no store", rounds, mixed, |t| t, &mut lines, |t| again::read_lines(t, &mut b).is_ok());
    row("read mixed, no store", rounds, mixed, |t| t, &mut lines, |t| table.read_lines(t).is_ok());
    row("read numbers, no store", rounds, numbers, |t| t, &mut lines, |t| table.read_lines(t).is_ok());

    let (mut a, mut b) = (Sheet::new(), Sheet::new());
    let mut rows = |t: &Vec<u8>| rust::read_sheet(t, &mut a).is_ok();
    row("null: read sheet", rounds, sheet, |t| t, &mut rows, |t| again::read_sheet(t, &mut b).is_ok());
    row("read sheet", rounds, sheet, |t| t, &mut rows, |t| table.read_sheet(t).is_ok());

    let (mut a, mut b, mut out) = (rust::Writer::new(), again::Writer::new(), vec![0; OUT]);
    let (mixed, numbers) = (|r: &mut Random| Tree::new(r.mixed_tree()), |r: &mut Random| Tree::new(r.number_tree()));
    let mut write = |t: &Tree| a.write_listing(&t.nodes, t.root).is_ok();
    let mut here = |t: &Tree| table.write_listing(&mut t.here.borrow_mut(), t.root, &mut out).is_ok();
    row("null: write mixed", rounds, mixed, |t| &t.text, &mut write, |t| b.write_listing(&t.nodes, t.root).is_ok());
    row("write mixed", rounds, mixed, |t| &t.text, &mut write, &mut here);
    row("write numbers", rounds, numbers, |t| &t.text, &mut write, &mut here);
}
