// Times the arithmetic of the crate timed against the same in Rust: num_complex's product and quotient, and the
// exact zero test against `re.hypot(im) < 1e-10`. bench/run builds it; an argument asks for more rounds.
use std::{f64::consts::TAU, hint::black_box};

type Pair = [f64; 2];
type Operation = extern "C" fn(f64, f64, f64, f64, &mut f64) -> f64;
type Test = extern "C" fn(f64, f64) -> bool;

const T: f64 = 1e-10;
const INPUTS: usize = 4096;
const ROUNDS: usize = 101; // at the least
const SLICE: f64 = 0.002; // what the quicker side takes in a round, in seconds

unsafe extern "C" {
    safe fn timed_mul(a: f64, b: f64, c: f64, d: f64, im: &mut f64) -> f64;
    safe fn timed_div(a: f64, b: f64, c: f64, d: f64, im: &mut f64) -> f64;
    safe fn timed_is_zero(re: f64, im: f64) -> bool;
    safe fn clock_gettime(clock: i32, seconds_and_nanoseconds: &mut [i64; 2]) -> i32;
}

// The side of Rust, twice. Each is in a section of its own: the compiler makes equal functions of one section into one.
macro_rules! side {
    ($name:ident, $section:literal) => {
        mod $name {
            #[inline(never)]
            #[link_section = $section]
            pub extern "C" fn mul(a: f64, b: f64, c: f64, d: f64, im: &mut f64) -> f64 {
                *im = a * d + b * c;
                a * c - b * d
            }
            #[inline(never)]
            #[link_section = $section]
            pub extern "C" fn div(a: f64, b: f64, c: f64, d: f64, im: &mut f64) -> f64 {
                let n = c * c + d * d;
                *im = (b * c - a * d) / n;
                (a * c + b * d) / n
            }
            #[inline(never)]
            #[link_section = $section]
            pub extern "C" fn is_zero(re: f64, im: f64) -> bool {
                re.hypot(im) < 1e-10
            }
        }
    };
}

side!(rust, ".text.rust");
side!(again, ".text.again");

// Marsaglia's xorshift of 64 bits, and the inputs that are drawn from it.
struct Random(u64);

impl Random {
    fn next(&mut self) -> u64 {
        self.0 ^= self.0 << 13;
        self.0 ^= self.0 >> 7;
        self.0 ^= self.0 << 17;
        self.0
    }

    fn below(&mut self, n: u64) -> u64 {
        (self.next() >> 11) % n
    }

    fn unit(&mut self) -> f64 {
        (self.next() >> 11) as f64 / (1u64 << 53) as f64
    }

    fn signed(&mut self, x: f64) -> f64 {
        if self.below(2) == 0 { x } else { -x }
    }

    // A magnitude from 10^low to 10^high, each power of ten as likely.
    fn decimal(&mut self, low: f64, high: f64) -> f64 {
        let power = low + (high - low) * self.unit();
        self.signed(10f64.powf(power))
    }

    fn ordinary(&mut self) -> f64 {
        self.decimal(-3.0, 3.0)
    }

    fn tiny(&mut self) -> f64 {
        if self.below(8) == 0 { self.signed(0.0) } else { self.decimal(-30.0, -12.0) }
    }

    // From 1 to 52 bits long, each length as likely.
    fn subnormal(&mut self) -> f64 {
        let bits = (self.next() | 1 << 63) >> (12 + self.below(52));
        self.signed(f64::from_bits(bits))
    }

    fn special(&mut self) -> f64 {
        match self.below(4) {
            0 => self.signed(f64::INFINITY),
            1 => f64::NAN,
            _ => self.ordinary(),
        }
    }

    fn pair(&mut self, part: fn(&mut Random) -> f64) -> Pair {
        [part(self), part(self)]
    }

    fn on_axis(&mut self) -> Pair {
        let x = self.ordinary();
        if self.below(4) == 0 { [0.0, x] } else { [x, 0.0] }
    }

    fn mixed_far(&mut self) -> Pair {
        match self.below(3) {
            0 => self.pair(Random::ordinary),
            1 => self.pair(Random::tiny),
            _ => self.on_axis(),
        }
    }

    // At this distance from 0 in any direction, one in 16 along the real axis.
    fn circle(&mut self, radius: f64) -> Pair {
        let angle = if self.below(16) == 0 { 0.0 } else { TAU * self.unit() };
        [radius * angle.cos(), radius * angle.sin()]
    }

    fn near(&mut self) -> Pair {
        let off = 0.6 * self.unit() - 0.3;
        self.circle(T * (1.0 + off))
    }

    // The greater part is moved by up to 3 units of its last place; rounding moved it by about one.
    fn very_near(&mut self) -> Pair {
        let mut z = self.circle(T);
        let greater = (z[0].abs() < z[1].abs()) as usize;
        z[greater] = f64::from_bits(z[greater].to_bits() + self.below(7) - 3);
        z
    }
}

fn sets() -> [(&'static str, Vec<Pair>); 9] {
    let mut r = Random(0x9E37_79B9_7F4A_7C15);
    let mut fill = |draw: fn(&mut Random) -> Pair| (0..INPUTS).map(|_| draw(&mut r)).collect();
    [
        ("is_zero 1 far above T", fill(|r| r.pair(Random::ordinary))),
        ("is_zero 2 far below T", fill(|r| r.pair(Random::tiny))),
        ("is_zero 3 subnormal", fill(|r| r.pair(Random::subnormal))),
        ("is_zero 4 one part 0", fill(Random::on_axis)),
        ("is_zero 5 mixed far", fill(Random::mixed_far)),
        ("is_zero 6 infinite, NaN", fill(|r| r.pair(Random::special))),
        ("is_zero 7 near T", fill(Random::near)),
        ("is_zero 8 very near T", fill(Random::very_near)),
        ("is_zero 9 realistic", fill(|r| if r.below(20) == 0 { r.near() } else { r.mixed_far() })),
    ]
}

// Bit for bit, and one NaN as good as another. As their addresses are taken here, the compiler calls all by C's rules.
fn agree(sides: [Operation; 3], set: &[Pair]) {
    let [f, again, g] = black_box(sides);
    for ([a, b], [c, d]) in set.iter().zip(set.iter().rev()) {
        let of = |f: Operation| {
            let mut im = 0.0;
            [f(*a, *b, *c, *d, &mut im), im].map(|x| if x.is_nan() { f64::NAN.to_bits() } else { x.to_bits() })
        };
        assert!(of(f) == of(g) && of(f) == of(again), "they differ on {a:e} {b:e}, {c:e} {d:e}");
    }
}

// How many answers differ: `hypot` rounds, so some may within a relative 1e-12 of T, and none elsewhere.
fn differing(sides: [Test; 3], set: &[Pair]) -> usize {
    let [f, again, g] = black_box(sides);
    let differs = |[re, im]: &&Pair| {
        let [x, y, z] = [f, again, g].map(|test| test(*re, *im));
        let is_close = (re.hypot(*im) / T - 1.0).abs() <= 1e-12;
        assert!(x == y && (x == z || is_close), "they differ on {re:e} {im:e}");
        x != z
    };
    set.iter().filter(differs).count()
}

// One pass over a set. It is inlined, so that each side has a loop of its own and a call that names it: where a call
// through a pointer leads is guessed by the processor, now better and now worse, which blurs the ratio.
#[inline(always)]
fn operate(set: &[Pair], f: Operation) {
    let (mut sum, mut im) = (0, 0.0);
    for ([a, b], [c, d]) in set.iter().zip(set.iter().rev()) {
        sum ^= f(*a, *b, *c, *d, &mut im).to_bits();
        sum ^= im.to_bits();
    }
    black_box(sum);
}

#[inline(always)]
fn count(set: &[Pair], f: Test) {
    black_box(set.iter().filter(|z| f(z[0], z[1])).count());
}

// This thread's processor time in seconds: Linux's CLOCK_THREAD_CPUTIME_ID.
fn now() -> f64 {
    let mut t = [0, 0];
    assert_eq!(clock_gettime(3, &mut t), 0);
    t[0] as f64 + t[1] as f64 * 1e-9
}

fn timed(passes: usize, pass: fn(&[Pair]), set: &[Pair]) -> f64 {
    let start = now();
    (0..passes).for_each(|_| black_box(pass)(black_box(set)));
    now() - start
}

fn quartiles(x: impl Iterator<Item = f64>) -> [f64; 3] {
    let mut sorted: Vec<f64> = x.collect();
    sorted.sort_by(f64::total_cmp);
    [1, 2, 3].map(|q| sorted[(sorted.len() - 1) * q / 4])
}

// The sides are Rust's and ours; each is first in every other round.
fn row(name: &str, rounds: usize, set: &[Pair], sides: [fn(&[Pair]); 2]) {
    let once = (0..10).map(|k| timed(1, sides[k % 2], set)).fold(1.0, f64::min);
    let passes = (SLICE / once).ceil() as usize;
    let mut times = vec![[0.0; 2]; rounds];
    for (k, time) in times.iter_mut().enumerate() {
        for side in [k % 2, 1 - k % 2] {
            time[side] = timed(passes, sides[side], set) * 1e9 / (passes * set.len()) as f64;
        }
    }
    let [rust, ours] = [0, 1].map(|side| quartiles(times.iter().map(|t| t[side]))[1]);
    let [low, ratio, high] = quartiles(times.iter().map(|t| t[1] / t[0]));
    println!("{name:<26}{rust:>9.2}{ours:>9.2}{ratio:>9.3} [{low:.3}, {high:.3}]");
}

fn main() {
    assert_eq!(T.to_bits(), 0x3DDB_7CDF_D9D7_BDBB);
    let rounds = std::env::args().nth(1).map_or(0, |n| n.parse().expect("a number of rounds")).max(ROUNDS);
    let sets = sets();
    for (_, set) in &sets {
        agree([rust::mul, again::mul, timed_mul], set);
        agree([rust::div, again::div, timed_div], set);
    }
    let differences = sets.each_ref().map(|(_, set)| differing([rust::is_zero, again::is_zero, timed_is_zero], set));
    let (far, mixed) = (&sets[0].1, &sets[4].1);
    println!("{:<26}{:>9}{:>9}{:>9} [quartiles]", "ns a call", "Rust", "here", "ratio");
    row("null: mul", rounds, far, [|s| operate(s, rust::mul), |s| operate(s, again::mul)]);
    row("null: div", rounds, far, [|s| operate(s, rust::div), |s| operate(s, again::div)]);
    row("null: is_zero 5", rounds, mixed, [|s| count(s, rust::is_zero), |s| count(s, again::is_zero)]);
    row("mul", rounds, far, [|s| operate(s, rust::mul), |s| operate(s, timed_mul)]);
    row("div", rounds, far, [|s| operate(s, rust::div), |s| operate(s, timed_div)]);
    for (name, set) in &sets {
        row(name, rounds, set, [|s| count(s, rust::is_zero), |s| count(s, timed_is_zero)]);
    }
    println!("answers of is_zero that differ, all within 1e-12 of T, in sets 1 to 9: {differences:?} of {INPUTS}");
}
