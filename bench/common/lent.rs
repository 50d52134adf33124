// What is lent to the crates here: rows for the nodes and a desk of single words. What they hold at first does not matter.
#![allow(dead_code)] // what only some of the benchmarks use

pub const DESK: usize = 272;
pub const TABLE: usize = 4608;

#[derive(Clone)]
pub struct Store {
    pub rows: Vec<[u64; 4]>,
    pub desk: [u64; DESK],
}

impl Store {
    pub fn new(room: usize) -> Store {
        Store { rows: vec![[1, 2, 3, 4].map(|k| u64::MAX / k); room], desk: [u64::MAX; DESK] }
    }

    pub fn copy_from(&mut self, other: &Store) {
        self.rows.copy_from_slice(&other.rows);
        self.desk = other.desk;
    }

    // How many nodes stand, once something was read.
    pub fn nodes(&self) -> usize {
        self.desk[0] as usize
    }

    // From here on the simplify calls are counted anew.
    pub fn forget_calls(&mut self) {
        self.desk[1] = 0;
    }
}
