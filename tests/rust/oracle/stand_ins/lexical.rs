// Stands in for the crate lexical: numbers are written as Rust writes them. Only the text of an expression uses it,
// which is no part of the port.
use std::{fmt::Display, num::NonZeroI32};

pub mod format {
    pub const STANDARD: u128 = 0;
}

#[derive(Clone)]
pub struct WriteFloatOptions;

pub struct Builder;

impl WriteFloatOptions {
    pub fn builder() -> Builder {
        Builder
    }
}

impl Builder {
    pub fn negative_exponent_break(self, _: Option<NonZeroI32>) -> Self {
        self
    }

    pub fn positive_exponent_break(self, _: Option<NonZeroI32>) -> Self {
        self
    }

    pub fn trim_floats(self, _: bool) -> Self {
        self
    }

    pub fn build(self) -> Result<WriteFloatOptions, String> {
        Ok(WriteFloatOptions)
    }
}

pub fn to_string_with_options<N: Display, const FORMAT: u128>(n: N, _: &WriteFloatOptions) -> String {
    n.to_string()
}
