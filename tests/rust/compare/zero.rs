// The rules' zero test and one test, exactly: parts and squares as whole multiples of the least subnormal, in as many
// digits as that takes.
use num_complex::Complex64;
use std::cmp::Ordering;

const T: f64 = 1e-10;
const BORDER: f64 = 1.1e-25; // a little more than the second corner's 1e-25, since the norm here is rounded

// A whole number, in digits of 32 bits, the lowest first.
type Whole = Vec<u64>;

// A finite double's magnitude in least subnormals.
fn whole(x: f64) -> Whole {
    let bits = x.abs().to_bits();
    let (exponent, fraction) = (bits >> 52, bits & ((1 << 52) - 1));
    let (digits, shift) = if exponent == 0 { (fraction, 0) } else { (fraction | 1 << 52, exponent as usize - 1) };
    let wide = u128::from(digits) << (shift % 32);
    let mut all = vec![0; shift / 32];
    all.extend([0, 32, 64].map(|by| (wide >> by) as u64 & 0xFFFF_FFFF));
    all
}

fn square(x: &Whole) -> Whole {
    let mut all = vec![0; 2 * x.len()];
    for (i, a) in x.iter().enumerate() {
        let mut carry = 0;
        for (j, b) in x.iter().enumerate() {
            let sum = all[i + j] + a * b + carry;
            (all[i + j], carry) = (sum & 0xFFFF_FFFF, sum >> 32);
        }
        all[i + x.len()] = carry;
    }
    all
}

fn sum(x: &Whole, y: &Whole) -> Whole {
    let (mut all, mut carry) = (vec![], 0);
    for i in 0..=x.len().max(y.len()) {
        let digits = x.get(i).unwrap_or(&0) + y.get(i).unwrap_or(&0) + carry;
        all.push(digits & 0xFFFF_FFFF);
        carry = digits >> 32;
    }
    all
}

fn is_below(x: &Whole, y: &Whole) -> bool {
    let digit = |w: &Whole, i: usize| *w.get(i).unwrap_or(&0);
    let order = (0..x.len().max(y.len())).rev().map(|i| digit(x, i).cmp(&digit(y, i))).find(|o| *o != Ordering::Equal);
    order == Some(Ordering::Less)
}

// Whether a number is zero; and whether it lies in the corner where the Rust's norm, which is rounded, may say otherwise.
pub fn is_zero(z: Complex64) -> (bool, bool) {
    if !z.re.is_finite() || !z.im.is_finite() || z.re.abs() > 2.0 * T || z.im.abs() > 2.0 * T {
        return (false, false);
    }
    let squares = sum(&square(&whole(z.re)), &square(&whole(z.im)));
    let border = z.re != 0.0 && z.im != 0.0 && (z.re.hypot(z.im) - T).abs() <= BORDER;
    (is_below(&squares, &square(&whole(T))), border)
}

pub fn is_one(z: Complex64) -> (bool, bool) {
    is_zero(Complex64::new(z.re - 1.0, z.im))
}
