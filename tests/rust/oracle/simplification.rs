// Stands where the Rust has the folder's own file: simplifying is what by_hand.rs does. Beside it lie copies of it that
// `build` makes, one for each limit, which tell of themselves (crate::watch).
use super::Expression;

mod by_hand;
pub use by_hand::run;

macro_rules! copies {
    ($($copy:ident)*) => {
        $(mod $copy;)*
        const RUNS: &[fn(&Expression) -> Expression] = &[$($copy::run),*];
    };
}
copies!(limit_0 limit_1 limit_2 limit_3 limit_4 limit_5 limit_6 limit_7 limit_8 limit_9 limit_10);

pub fn run_to(limit: u64, expression: &Expression) -> Expression {
    RUNS[limit as usize](expression)
}
