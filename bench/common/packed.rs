// The numbers that the crate timed answers, taken apart and put together: its specs/Packed says which bits are which.
#![allow(dead_code)] // what only some of the benchmarks use

// A refusal: its number, 0 if the answer is none, and the line that it carries.
pub fn refused(answer: u64) -> u64 {
    answer >> 58
}

pub fn place(answer: u64) -> u64 {
    answer % (1 << 16)
}

pub fn refusal(number: u64) -> u64 {
    number << 58
}

// A node and the count of nodes.
pub fn node(answer: u64) -> usize {
    (answer % 4096) as usize
}

pub fn nodes(answer: u64) -> usize {
    (answer >> 12) as usize % 8192
}

pub fn of_nodes(node: usize, nodes: usize) -> u64 {
    node as u64 + ((nodes as u64) << 12)
}

// The counts of variables, cells and function values.
pub fn rows(answer: u64) -> [usize; 3] {
    [25, 36, 47].map(|bit| (answer >> bit) as usize % 2048)
}

pub fn of_rows([variables, cells, functions]: [usize; 3]) -> u64 {
    ((variables as u64) << 25) + ((cells as u64) << 36) + ((functions as u64) << 47)
}

pub fn bytes(answer: u64) -> usize {
    answer as usize % (1 << 25)
}

// The number of simplify calls.
pub fn calls(answer: u64) -> u64 {
    (answer >> 25) % (1 << 32)
}
