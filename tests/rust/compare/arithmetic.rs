// The arithmetic of the rules: the five operations on complex numbers by their formulas, and which function values each
// operation asks for.
use num_complex::Complex64;
use oracle::expression::{ExpressionFunction, InfixOperator};
use oracle::trace::Operation;

pub fn real(x: f64) -> Complex64 {
    Complex64::new(x, 0.0)
}

fn plus(x: Complex64, y: Complex64) -> Complex64 {
    Complex64::new(x.re + y.re, x.im + y.im)
}

fn minus(x: Complex64, y: Complex64) -> Complex64 {
    Complex64::new(x.re - y.re, x.im - y.im)
}

fn times(x: Complex64, y: Complex64) -> Complex64 {
    Complex64::new(x.re * y.re - x.im * y.im, x.re * y.im + x.im * y.re)
}

fn over(x: Complex64, y: Complex64) -> Complex64 {
    let n = y.re * y.re + y.im * y.im;
    Complex64::new((x.re * y.re + x.im * y.im) / n, (x.im * y.re - x.re * y.im) / n)
}

pub fn negated(x: Complex64) -> Complex64 {
    Complex64::new(-x.re, -x.im)
}

// `ask` has the function values, or says why not.
pub fn function_value<E>(
    function: ExpressionFunction,
    x: Complex64,
    mut ask: impl FnMut(Operation, Complex64, Complex64) -> Result<Complex64, E>,
) -> Result<Complex64, E> {
    let zero = real(0.0);
    match function {
        ExpressionFunction::Sine => ask(Operation::Sine, x, zero),
        ExpressionFunction::Cosine => ask(Operation::Cosine, x, zero),
        ExpressionFunction::Exponent => ask(Operation::Exponent, x, zero),
        ExpressionFunction::SquareRoot => ask(Operation::SquareRoot, x, zero),
        ExpressionFunction::Cis => {
            let cosine = ask(Operation::Cosine, x, zero)?;
            let sine = ask(Operation::Sine, x, zero)?;
            Ok(plus(cosine, times(Complex64::new(0.0, 1.0), sine)))
        }
    }
}

pub fn infix_value<E>(
    x: Complex64,
    operator: InfixOperator,
    y: Complex64,
    mut ask: impl FnMut(Operation, Complex64, Complex64) -> Result<Complex64, E>,
) -> Result<Complex64, E> {
    match operator {
        InfixOperator::Plus => Ok(plus(x, y)),
        InfixOperator::Minus => Ok(minus(x, y)),
        InfixOperator::Star => Ok(times(x, y)),
        InfixOperator::Slash => Ok(over(x, y)),
        InfixOperator::Caret => ask(Operation::Power, x, y),
    }
}
