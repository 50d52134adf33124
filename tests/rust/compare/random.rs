// Random choices, and the numbers that cases are made of.
use num_complex::Complex64;
use oracle::trace::ONE_NAN;
use std::f64::consts::{E, FRAC_1_SQRT_2, PI};

// Marsaglia's xorshift of 64 bits, with a multiplication against its weak low bits.
pub struct Random(u64);

// What the numbers of a case are like.
#[derive(Clone, Copy, PartialEq)]
pub enum Numbers {
    Plane,  // of moderate size, both parts nonzero
    Line,   // of moderate size, mostly real
    Wild,   // infinities, NaN, zeros of both signs, subnormals, the largest
    Few,    // 0 and -0, 1 and -1, 2 and infinity: many that are equal, or all but equal
    Border, // on and around the tests for zero and one
    Bits,   // any bits
}

const SMALL: f64 = 1e-16; // to_real takes an imaginary part below it for zero
const T: f64 = 1e-10; // a number is zero where its norm is below it
const SPECIAL: [f64; 18] = [
    0.0,
    -0.0,
    1.0,
    -1.0,
    2.0,
    0.5,
    PI,
    E,
    f64::INFINITY,
    f64::NEG_INFINITY,
    f64::MAX,
    f64::MIN,
    f64::MIN_POSITIVE,
    -f64::MIN_POSITIVE,
    f64::EPSILON,
    1e-10,
    SMALL,
    -SMALL,
];
const FEW: [f64; 7] = [0.0, 0.0, -0.0, 1.0, -1.0, 2.0, f64::INFINITY];
const NANS: [u64; 4] = [ONE_NAN, 0xFFF8_0000_0000_0000, 0x7FF0_0000_0000_0001, 0xFFFF_FFFF_FFFF_FFFF];

impl Random {
    pub fn new(seed: u64) -> Self {
        let mut random = Random(seed.wrapping_mul(0x9E37_79B9_7F4A_7C15) ^ 0x2545_F491_4F6C_DD1D);
        if random.0 == 0 {
            random.0 = 1;
        }
        for _ in 0..8 {
            random.next();
        }
        random
    }

    pub fn next(&mut self) -> u64 {
        self.0 ^= self.0 >> 12;
        self.0 ^= self.0 << 25;
        self.0 ^= self.0 >> 27;
        self.0.wrapping_mul(0x2545_F491_4F6C_DD1D)
    }

    pub fn below(&mut self, n: usize) -> usize {
        ((self.next() >> 11) % n as u64) as usize
    }

    pub fn from(&mut self, low: usize, high: usize) -> usize {
        low + self.below(high - low + 1)
    }

    // Whether something happens that happens once in n times.
    pub fn once_in(&mut self, n: usize) -> bool {
        self.below(n) == 0
    }

    pub fn pick<T: Copy>(&mut self, all: &[T]) -> T {
        all[self.below(all.len())]
    }

    pub fn shuffle<T>(&mut self, all: &mut [T]) {
        for i in (1..all.len()).rev() {
            all.swap(i, self.below(i + 1));
        }
    }

    fn unit(&mut self) -> f64 {
        (self.next() >> 11) as f64 / (1u64 << 53) as f64
    }

    fn moderate(&mut self) -> f64 {
        match self.below(4) {
            0 => self.from(1, 9) as f64 * self.pick(&[1.0, -1.0, 0.5, -0.25]),
            1 => PI * self.pick(&[1.0, -1.0, 0.5, 0.25, 2.0]),
            _ => 6.0 * self.unit() - 3.0,
        }
    }

    fn subnormal(&mut self) -> f64 {
        let bits = (self.next() | 1 << 63) >> (12 + self.below(52));
        f64::from_bits(bits | (self.next() & 1 << 63))
    }

    // Some units of the last place from the number with which to_real compares.
    fn nearly_small(&mut self) -> f64 {
        let bits = SMALL.to_bits() + self.below(7) as u64 - 3;
        f64::from_bits(bits | (self.next() & 1 << 63))
    }

    fn wild(&mut self) -> f64 {
        match self.below(12) {
            0 => f64::from_bits(self.pick(&NANS)),
            1 => self.subnormal(),
            2 => self.nearly_small(),
            3 => self.moderate() * 1e300,
            4 | 5 => self.moderate(),
            _ => self.pick(&SPECIAL),
        }
    }

    pub fn double(&mut self, numbers: Numbers) -> f64 {
        match numbers {
            Numbers::Plane | Numbers::Line => self.moderate(),
            Numbers::Wild => self.wild(),
            Numbers::Few => self.pick(&FEW),
            Numbers::Border => self.around_zero(),
            Numbers::Bits => f64::from_bits(self.next()),
        }
    }

    pub fn complex(&mut self, numbers: Numbers) -> Complex64 {
        if numbers == Numbers::Border {
            return self.around_the_border();
        }
        let (re, im) = (self.double(numbers), self.double(numbers));
        match numbers {
            Numbers::Line if !self.once_in(8) => Complex64::new(re, 0.0),
            Numbers::Wild if self.once_in(3) => Complex64::new(re, self.pick(&[0.0, -0.0])),
            _ => Complex64::new(re, im),
        }
    }

    // Some units of the last place from a double.
    fn near(&mut self, x: f64) -> f64 {
        f64::from_bits(x.to_bits() + self.below(5) as u64 - 2)
    }

    // What the test for zero compares with T: a magnitude near it, or one far below or above it.
    fn around_zero(&mut self) -> f64 {
        let magnitude = match self.below(8) {
            0 | 1 => self.near(T),
            2 => self.near(T * FRAC_1_SQRT_2),
            3 => T * self.unit() * 1.5,
            4 => self.subnormal().abs(),
            5 => self.pick(&[1e-11, 1e-9, 1e-20, 1e-150, 1e-165, 2e-10]),
            _ => 0.0,
        };
        if self.once_in(3) { -magnitude } else { magnitude }
    }

    fn around_the_border(&mut self) -> Complex64 {
        let whole = self.pick(&[0.0, 0.0, 0.0, 0.0, 1.0, 1.0, 1.0, -1.0, 2.0, 3.0, -2.0, 0.5]);
        let off = if self.once_in(2) { 0.0 } else { self.around_zero() };
        let im = match self.below(8) {
            0 => self.around_zero(),
            1 => -0.0,
            2 => self.pick(&[1.0, -1.0, 0.5]),
            _ => 0.0,
        };
        let re = if self.once_in(8) {
            self.pick(&[f64::NAN, f64::INFINITY, f64::NEG_INFINITY, f64::MAX])
        } else {
            whole + off
        };
        if self.once_in(12) { Complex64::new(-0.0, im) } else { Complex64::new(re, im) }
    }

    // An imaginary part for to_real: small, not small, or near the border.
    pub fn imaginary(&mut self) -> f64 {
        match self.below(6) {
            0 | 1 => self.nearly_small(),
            2 => self.pick(&[0.0, -0.0]),
            3 => self.subnormal(),
            4 => SMALL * self.unit() * 2.0,
            _ => self.wild(),
        }
    }
}
