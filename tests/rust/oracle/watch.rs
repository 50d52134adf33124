// What the copies of by_hand.rs that `build` makes tell of themselves: how often `simplify` was called, and the functions
// that were applied to numbers, in their order.
use crate::expression::{ExpressionFunction, InfixOperator};
use crate::trace::Asks;
use num_complex::Complex64;
use std::cell::RefCell;

#[derive(Default)]
pub struct Watched {
    pub calls: u64,
    pub asks: Asks,
}

thread_local! {
    static WATCHED: RefCell<Watched> = RefCell::default();
}

pub fn call() {
    WATCHED.with_borrow_mut(|w| w.calls += 1);
}

pub fn function(function: ExpressionFunction, x: Complex64) -> Complex64 {
    WATCHED.with_borrow_mut(|w| w.asks.function(function, x))
}

pub fn infix(x: Complex64, operator: InfixOperator, y: Complex64) -> Complex64 {
    WATCHED.with_borrow_mut(|w| w.asks.infix(x, operator, y))
}

// What was seen since this was last asked.
pub fn take() -> Watched {
    WATCHED.take()
}
