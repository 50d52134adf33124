// The two texts in plain Rust, by hand: a listing read into a store of distinct nodes or only line by line, a sheet
// read, a listing written. It tests all that the crates here test. Nothing grows: what is lent has room from the
// beginning.
use super::{
    CELLS, DEEPEST, FUNCTION_ROWS, FUNCTIONS, LARGEST, LINES, Node, OPERATIONS, OUT, ROOM, ROW_NAMES, Refusal, Sheet,
    VARIABLES,
};
use std::{collections::{HashMap, hash_map::Entry}, hash::BuildHasher};

// What is left of a text.
struct Cursor<'a>(&'a [u8]);

fn canonical(bits: u64) -> u64 {
    if f64::from_bits(bits).is_nan() { 0x7FF8_0000_0000_0000 } else { bits }
}

impl Cursor<'_> {
    fn byte(&mut self) -> Option<u8> {
        let (byte, rest) = self.0.split_first()?;
        self.0 = rest;
        Some(*byte)
    }

    fn expect(&mut self, byte: u8) -> Option<()> {
        (self.byte()? == byte).then_some(())
    }

    // A number below the limit, and the byte that ends its field.
    fn decimal(&mut self, stop: u8, limit: u64) -> Option<u64> {
        let first = self.byte()?;
        if !first.is_ascii_digit() {
            return None;
        }
        let mut value = u64::from(first - b'0');
        loop {
            let byte = self.byte()?;
            if byte == stop {
                break;
            }
            if !byte.is_ascii_digit() || value == 0 {
                return None;
            }
            value = value * 10 + u64::from(byte - b'0');
            if value >= limit {
                return None;
            }
        }
        (value < limit).then_some(value)
    }

    // The bits of a double, one NaN for all.
    fn double(&mut self, stop: u8) -> Option<u64> {
        let (digits, rest) = self.0.split_first_chunk::<16>()?;
        let mut bits = 0;
        for digit in digits {
            let value = match digit {
                b'0'..=b'9' => digit - b'0',
                b'A'..=b'F' => digit - b'A' + 10,
                _ => return None,
            };
            bits = bits << 4 | u64::from(value);
        }
        self.0 = rest;
        self.expect(stop)?;
        Some(canonical(bits))
    }

    // The number of a name from 1 on, and its tab.
    fn name(&mut self, names: &[&[u8]]) -> Option<u64> {
        let at = names.iter().position(|name| self.0.starts_with(name))?;
        self.0 = &self.0[names[at].len()..];
        self.expect(b'\t')?;
        Some(at as u64 + 1)
    }

    // A node line whose operands are lines before it.
    fn node(&mut self, lines: u64) -> Option<Node> {
        let kind = self.byte()?;
        if kind == b'p' {
            self.expect(b'\n')?;
            return Some(Node { code: 2, a: 0, b: 0 });
        }
        self.expect(b'\t')?;
        Some(match kind {
            b'n' => Node { code: 1, a: self.double(b'\t')?, b: self.double(b'\n')? },
            b'v' => Node { code: 3, a: self.decimal(b'\n', 1 << 16)?, b: 0 },
            b'm' => Node { code: 4, a: self.decimal(b'\t', 1 << 16)?, b: self.decimal(b'\n', 1 << 32)? },
            b'f' => Node { code: 5 + 8 * self.name(&FUNCTIONS)?, a: self.decimal(b'\n', lines)?, b: 0 },
            b'u' => Node { code: 6 + 8 * self.name(&OPERATIONS[..2])?, a: self.decimal(b'\n', lines)?, b: 0 },
            b'b' => {
                let code = 7 + 8 * self.name(&OPERATIONS)?;
                Node { code, a: self.decimal(b'\t', lines)?, b: self.decimal(b'\n', lines)? }
            }
            _ => return None,
        })
    }
}

// The nodes of the lines as they stand.
#[inline(never)]
pub fn read_lines(text: &[u8], nodes: &mut Vec<Node>) -> Result<(), Refusal> {
    nodes.clear();
    let mut cursor = Cursor(text);
    while !cursor.0.is_empty() {
        let line = nodes.len() as u64;
        if line >= LINES {
            return Err((2, line));
        }
        nodes.push(cursor.node(line).ok_or((1, line))?);
    }
    Ok(())
}

// Distinct nodes, found by their fields.
pub struct Store<S> {
    map: HashMap<Node, usize, S>,
    pub nodes: Vec<Node>,
    size: Vec<u64>,
    depth: Vec<u64>,
    node_of_line: Vec<usize>,
}

impl<S: BuildHasher + Default> Store<S> {
    pub fn new() -> Store<S> {
        let map = HashMap::with_capacity_and_hasher(ROOM, S::default());
        let list = || Vec::with_capacity(ROOM);
        let (nodes, node_of_line) = (Vec::with_capacity(ROOM), Vec::with_capacity(LINES as usize));
        Store { map, nodes, size: list(), depth: list(), node_of_line }
    }

    fn clear(&mut self) {
        self.map.clear();
        self.nodes.clear();
        self.size.clear();
        self.depth.clear();
        self.node_of_line.clear();
    }

    fn add(&mut self, node: Node) -> Result<usize, Refusal> {
        let place = match self.map.entry(node) {
            Entry::Occupied(at) => return Ok(*at.get()),
            Entry::Vacant(place) => place,
        };
        let (i, j) = (node.a as usize, node.b as usize);
        let (size, depth) = match node.code % 8 {
            5 | 6 => (1 + self.size[i], 1 + self.depth[i]),
            7 => (1 + self.size[i] + self.size[j], 1 + self.depth[i].max(self.depth[j])),
            _ => (1, 1),
        };
        if size > LARGEST {
            return Err((6, 0));
        }
        if depth > DEEPEST {
            return Err((7, 0));
        }
        let n = self.nodes.len();
        if n >= ROOM {
            return Err((8, 0));
        }
        place.insert(n);
        self.nodes.push(node);
        self.size.push(size);
        self.depth.push(depth);
        Ok(n)
    }

    // Answers the root's node.
    #[inline(never)]
    pub fn read_listing(&mut self, text: &[u8]) -> Result<usize, Refusal> {
        self.clear();
        let mut cursor = Cursor(text);
        while !cursor.0.is_empty() {
            let line = self.node_of_line.len() as u64;
            if line >= LINES {
                return Err((2, line));
            }
            let Node { code, mut a, mut b } = cursor.node(line).ok_or((1, line))?;
            if code % 8 >= 5 {
                a = self.node_of_line[a as usize] as u64;
            }
            if code % 8 == 7 {
                b = self.node_of_line[b as usize] as u64;
            }
            let node = self.add(Node { code, a, b })?;
            self.node_of_line.push(node);
        }
        self.node_of_line.last().copied().ok_or((1, 0))
    }
}

#[inline(never)]
pub fn read_sheet(text: &[u8], sheet: &mut Sheet) -> Result<(), Refusal> {
    let Sheet { variables, cells, functions } = sheet;
    variables.clear();
    cells.clear();
    functions.clear();
    let mut cursor = Cursor(text);
    while let Some(kind) = cursor.0.first() {
        let line = (variables.len() + cells.len() + functions.len()) as u64;
        let bad = (3, line);
        match kind {
            b'v' => {
                if variables.len() >= VARIABLES {
                    return Err((4, line));
                }
                if !cells.is_empty() || !functions.is_empty() {
                    return Err(bad);
                }
                let row = cursor.variable().ok_or(bad)?;
                if variables.last().is_some_and(|last| last.0 >= row.0) {
                    return Err(bad);
                }
                variables.push(row);
            }
            b'm' => {
                if cells.len() >= CELLS {
                    return Err((4, line));
                }
                if !functions.is_empty() {
                    return Err(bad);
                }
                let row = cursor.cell().ok_or(bad)?;
                if cells.last().is_some_and(|last| (last.0, last.1) >= (row.0, row.1)) {
                    return Err(bad);
                }
                cells.push(row);
            }
            b't' => {
                if functions.len() >= FUNCTION_ROWS {
                    return Err((4, line));
                }
                functions.push(cursor.function().ok_or(bad)?);
            }
            _ => return Err(bad),
        }
    }
    Ok(())
}

impl Cursor<'_> {
    // The letter of a row, which is known, and its tab.
    fn letter(&mut self) -> Option<()> {
        self.byte()?;
        self.expect(b'\t')
    }

    fn variable(&mut self) -> Option<(u64, [u64; 2])> {
        self.letter()?;
        Some((self.decimal(b'\t', 1 << 16)?, [self.double(b'\t')?, self.double(b'\n')?]))
    }

    fn cell(&mut self) -> Option<(u64, u64, u64)> {
        self.letter()?;
        Some((self.decimal(b'\t', 1 << 16)?, self.decimal(b'\t', 1 << 32)?, self.double(b'\n')?))
    }

    fn function(&mut self) -> Option<(u64, [u64; 6])> {
        self.letter()?;
        let name = self.name(&ROW_NAMES)?;
        let mut numbers = [0; 6];
        for (k, number) in numbers.iter_mut().enumerate() {
            *number = self.double(if k < 5 { b'\t' } else { b'\n' })?;
        }
        (name == 5 || numbers[2..4] == [0, 0]).then_some((name, numbers))
    }
}

// Writes the nodes below the root once each, in the order in which they are first finished.
pub struct Writer {
    line_of_node: Vec<Option<u32>>,
    order: Vec<usize>,
    pub out: Vec<u8>,
}

const UPPER: &[u8; 16] = b"0123456789ABCDEF";

impl Writer {
    pub fn new() -> Writer {
        let (line_of_node, order) = (Vec::with_capacity(ROOM), Vec::with_capacity(ROOM));
        Writer { line_of_node, order, out: Vec::with_capacity(OUT) }
    }

    fn visit(&mut self, nodes: &[Node], i: usize) {
        if self.line_of_node[i].is_some() {
            return;
        }
        let Node { code, a, b } = nodes[i];
        if code % 8 >= 5 {
            self.visit(nodes, a as usize);
        }
        if code % 8 == 7 {
            self.visit(nodes, b as usize);
        }
        self.line_of_node[i] = Some(self.order.len() as u32);
        self.order.push(i);
    }

    fn hex(&mut self, n: u64, stop: u8) {
        let mut field = [stop; 17];
        for (k, byte) in field[..16].iter_mut().enumerate() {
            *byte = UPPER[(n >> (60 - 4 * k)) as usize % 16];
        }
        self.out.extend_from_slice(&field);
    }

    fn decimal(&mut self, mut n: u64, stop: u8) {
        let mut field = [stop; 11];
        let mut at = 10;
        loop {
            at -= 1;
            field[at] = b'0' + (n % 10) as u8;
            n /= 10;
            if n == 0 {
                break;
            }
        }
        self.out.extend_from_slice(&field[at..]);
    }

    fn line(&self, node: u64) -> u64 {
        self.line_of_node[node as usize].map_or(0, u64::from)
    }

    #[inline(never)]
    pub fn write_listing(&mut self, nodes: &[Node], root: usize) -> Result<usize, Refusal> {
        self.line_of_node.clear();
        self.line_of_node.resize(nodes.len(), None);
        self.order.clear();
        self.out.clear();
        self.visit(nodes, root);
        if self.order.len() as u64 > LINES {
            return Err((2, 0));
        }
        for k in 0..self.order.len() {
            let Node { code, a, b } = nodes[self.order[k]];
            let operator = (code / 8) as usize;
            match code % 8 {
                1 => {
                    self.out.extend_from_slice(b"n\t");
                    self.hex(a, b'\t');
                    self.hex(b, b'\n');
                }
                2 => self.out.extend_from_slice(b"p\n"),
                3 => {
                    self.out.extend_from_slice(b"v\t");
                    self.decimal(a, b'\n');
                }
                4 => {
                    self.out.extend_from_slice(b"m\t");
                    self.decimal(a, b'\t');
                    self.decimal(b, b'\n');
                }
                5 => {
                    self.out.extend_from_slice(b"f\t");
                    self.out.extend_from_slice(FUNCTIONS[operator - 1]);
                    self.out.push(b'\t');
                    self.decimal(self.line(a), b'\n');
                }
                6 => {
                    self.out.extend_from_slice(&[b'u', b'\t', OPERATIONS[operator - 1][0], b'\t']);
                    self.decimal(self.line(a), b'\n');
                }
                _ => {
                    self.out.extend_from_slice(&[b'b', b'\t', OPERATIONS[operator - 1][0], b'\t']);
                    self.decimal(self.line(a), b'\t');
                    self.decimal(self.line(b), b'\n');
                }
            }
        }
        Ok(self.out.len())
    }
}
