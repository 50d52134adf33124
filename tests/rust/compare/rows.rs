// The t rows of a sheet: which is found for what is asked, by number, and its value.
use crate::texts::{double, operation_of};
use num_complex::Complex64;
use oracle::trace::Asked;
use std::collections::{BTreeSet, HashMap};

#[derive(Default)]
pub struct Rows {
    first: HashMap<Asked, (usize, Complex64)>, // of those for the same
    pub count: usize,
}

fn number(re: &str, im: &str) -> Complex64 {
    Complex64::new(double(re), double(im))
}

impl Rows {
    // They are numbered from 0, among the t lines alone.
    pub fn read(sheet: &str) -> Self {
        let mut rows = Self::default();
        for line in sheet.lines().filter(|line| line.starts_with('t')) {
            let [_, name, a, b, c, d, re, im] = line.split('\t').collect::<Vec<_>>()[..] else {
                panic!("a row of a sheet: {line}")
            };
            let asked = Asked::new(operation_of(name), number(a, b), number(c, d));
            rows.first.entry(asked).or_insert((rows.count, number(re, im)));
            rows.count += 1;
        }
        rows
    }

    pub fn find(&self, asked: Asked) -> Option<(usize, Complex64)> {
        self.first.get(&asked).copied()
    }

    pub fn has(&self, asked: Asked) -> bool {
        self.first.contains_key(&asked)
    }

    // Those that are found for these, asked one after another, up to the first that is lacking.
    pub fn found(&self, asked: &[Asked]) -> BTreeSet<usize> {
        asked.iter().map_while(|a| self.find(*a)).map(|(number, _)| number).collect()
    }
}
