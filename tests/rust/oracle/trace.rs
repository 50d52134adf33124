// The functions that the Rust's `evaluate` applies on its way, in its order: what a value sheet has to have rows for. The
// same is noted of its simplifying (watch.rs).
use crate::expression::{
    EvaluationError, Expression, ExpressionFunction, FunctionCallExpression, InfixExpression, InfixOperator,
    PrefixExpression, PrefixOperator, function_value, infix_value,
};
use num_complex::Complex64;
use std::collections::{HashMap, HashSet};

// The functions of a sheet's rows, numbered as a refusal numbers them.
#[derive(Clone, Copy, Debug, PartialEq, Eq, Hash)]
pub enum Operation {
    Sine = 1,
    Cosine,
    Exponent,
    SquareRoot,
    Power,
}

pub const OPERATIONS: [Operation; 5] =
    [Operation::Sine, Operation::Cosine, Operation::Exponent, Operation::SquareRoot, Operation::Power];

// An operation and the bits of its operands. All NaNs are one; the second operand is zeros unless it is a power.
#[derive(Clone, Copy, Debug, PartialEq, Eq, Hash)]
pub struct Asked {
    pub operation: Operation,
    pub operands: [u64; 4],
}

pub const ONE_NAN: u64 = 0x7FF8_0000_0000_0000;

pub fn bits(x: f64) -> u64 {
    if x.is_nan() { ONE_NAN } else { x.to_bits() }
}

impl Asked {
    pub fn new(operation: Operation, x: Complex64, y: Complex64) -> Self {
        Self { operation, operands: [bits(x.re), bits(x.im), bits(y.re), bits(y.im)] }
    }

    pub fn value(self) -> Complex64 {
        let [a, b, c, d] = self.operands.map(f64::from_bits);
        let x = Complex64::new(a, b);
        match self.operation {
            Operation::Sine => x.sin(),
            Operation::Cosine => x.cos(),
            Operation::Exponent => x.exp(),
            Operation::SquareRoot => x.sqrt(),
            Operation::Power => x.powc(Complex64::new(c, d)),
        }
    }

    // The corners in which no equality with the Rust is claimed: there the sign of a zero or of a NaN decides.
    pub fn is_corner(self) -> bool {
        let [re, im] = [self.operands[0], self.operands[1]].map(f64::from_bits);
        match self.operation {
            Operation::SquareRoot => im == 0.0 && !(re > 0.0),
            Operation::Power => im == 0.0 && re <= 0.0,
            _ => false,
        }
    }
}

// Functions that were applied: each once, as first asked for.
#[derive(Clone, Debug, Default)]
pub struct Asks {
    pub list: Vec<Asked>,
    known: HashSet<Asked>,
}

impl Asks {
    pub fn note(&mut self, asked: Asked) {
        if self.known.insert(asked) {
            self.list.push(asked);
        }
    }

    pub fn function(&mut self, function: ExpressionFunction, x: Complex64) -> Complex64 {
        let zero = Complex64::new(0.0, 0.0);
        let operations: &[Operation] = match function {
            ExpressionFunction::Sine => &[Operation::Sine],
            ExpressionFunction::Cosine => &[Operation::Cosine],
            ExpressionFunction::Exponent => &[Operation::Exponent],
            ExpressionFunction::SquareRoot => &[Operation::SquareRoot],
            ExpressionFunction::Cis => &[Operation::Cosine, Operation::Sine],
        };
        for operation in operations {
            self.note(Asked::new(*operation, x, zero));
        }
        function_value(function, x)
    }

    pub fn infix(&mut self, x: Complex64, operator: InfixOperator, y: Complex64) -> Complex64 {
        if operator == InfixOperator::Caret {
            self.note(Asked::new(Operation::Power, x, y));
        }
        infix_value(x, operator, y)
    }
}

pub struct Trace<'a> {
    variables: &'a HashMap<String, Complex64>,
    memory: &'a HashMap<String, Vec<f64>>,
    pub asks: Asks,
}

impl<'a> Trace<'a> {
    pub fn new(variables: &'a HashMap<String, Complex64>, memory: &'a HashMap<String, Vec<f64>>) -> Self {
        Self { variables, memory, asks: Asks::default() }
    }

    // As `evaluate` goes, with a note of each function.
    pub fn value(&mut self, expression: &Expression) -> Result<Complex64, EvaluationError> {
        match expression {
            Expression::FunctionCall(FunctionCallExpression { function, expression }) => {
                let x = self.value(expression)?;
                Ok(self.asks.function(*function, x))
            }
            Expression::Infix(InfixExpression { left, operator, right }) => {
                let x = self.value(left)?;
                let y = self.value(right)?;
                Ok(self.asks.infix(x, *operator, y))
            }
            Expression::Prefix(PrefixExpression { operator, expression }) => {
                let x = self.value(expression)?;
                Ok(if *operator == PrefixOperator::Minus { -x } else { x })
            }
            leaf => leaf.evaluate(self.variables, self.memory),
        }
    }
}
