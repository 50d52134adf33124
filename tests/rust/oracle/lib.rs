// The Rust's expression module as a library: its three files are read as they are, from the folder ORACLE_GIVEN that
// `build` lays out, and what they name beside themselves is stood in for here and in stand_ins.
#![allow(dead_code, unused_imports, unexpected_cfgs)]

pub mod nodes;
pub mod trace;
pub mod watch;

pub mod expression {
    include!(concat!(env!("ORACLE_GIVEN"), "/expression/module.rs"));

    // Names that the given file uses and does not define.
    mod names;
    pub use names::{ExpressionFunction, InfixOperator, PrefixOperator, interned};

    // The two functions by which evaluating and simplifying compute, for the rows of a sheet and for `trace`.
    pub fn infix_value(left: Complex64, operator: InfixOperator, right: Complex64) -> Complex64 {
        calculate_infix(left, operator, right)
    }

    pub fn function_value(function: ExpressionFunction, argument: Complex64) -> Complex64 {
        calculate_function(function, argument)
    }

    // The copies of by_hand.rs import their two functions from here.
    use crate::watch;

    // Simplifying to a limit from 0 to 10, and what was seen of it. The root is handed over whatever it is, so that a
    // leaf is a call too.
    pub fn simplified(limit: u64, expression: &Expression) -> (Expression, watch::Watched) {
        watch::take();
        let result = simplification::run_to(limit, expression);
        (result, watch::take())
    }
}

pub mod quil {
    include!(concat!(env!("ORACLE_GIVEN"), "/quil.rs"));
}

#[macro_export]
macro_rules! real {
    ($x:expr) => {
        num_complex::Complex64 { re: $x, im: 0.0 }
    };
}

#[macro_export]
macro_rules! imag {
    ($x:expr) => {
        num_complex::Complex64 { re: 0.0, im: $x }
    };
}

// Equal parts are equal as floats, zeros of either sign, or both NaN. The hash agrees with that.
pub mod floating_point_eq {
    pub mod complex64 {
        use num_complex::Complex64;
        use std::hash::{Hash, Hasher};

        fn same(x: f64, y: f64) -> bool {
            x == y || x.is_nan() && y.is_nan()
        }

        fn class(x: f64) -> u64 {
            if x.is_nan() {
                f64::NAN.to_bits()
            } else if x == 0.0 {
                0
            } else {
                x.to_bits()
            }
        }

        pub fn eq(left: Complex64, right: Complex64) -> bool {
            same(left.re, right.re) && same(left.im, right.im)
        }

        pub fn hash<H: Hasher>(x: Complex64, state: &mut H) {
            class(x.re).hash(state);
            class(x.im).hash(state);
        }
    }
}

pub mod instruction {
    use crate::quil::{Quil, ToQuilError};

    #[derive(Clone, Debug, PartialEq, Eq, Hash)]
    pub struct MemoryReference {
        pub name: String,
        pub index: u64,
    }

    impl Quil for MemoryReference {
        fn write(&self, f: &mut impl std::fmt::Write, _: bool) -> Result<(), ToQuilError> {
            write!(f, "{}[{}]", self.name, self.index).map_err(Into::into)
        }
    }
}

// Parsing is no part of the port: here it always fails.
pub mod parser {
    use crate::expression::Expression;
    use nom_locate::LocatedSpan;

    #[derive(Debug)]
    pub struct Token;

    #[derive(Debug)]
    pub struct ParseError;

    impl ParseError {
        pub fn from_nom_internal_err(error: ParseError) -> Self {
            error
        }
    }

    pub fn lex(_: LocatedSpan<&str>) -> Result<Vec<Token>, ParseError> {
        Err(ParseError)
    }

    pub fn parse_expression(_: &[Token]) -> Result<Expression, ParseError> {
        Err(ParseError)
    }
}

pub mod program {
    use crate::parser::ParseError;
    use std::marker::PhantomData;

    #[derive(Debug)]
    pub struct ParseProgramError<T>(PhantomData<T>);

    impl<T> From<ParseError> for ParseProgramError<T> {
        fn from(_: ParseError) -> Self {
            Self(PhantomData)
        }
    }

    pub fn disallow_leftover<T>(parsed: Result<T, ParseError>) -> Result<T, ParseProgramError<T>> {
        parsed.map_err(Into::into)
    }
}
