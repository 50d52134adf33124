// What the Rust's expression module uses and the given file does not hold: the operators, the functions and the makers
// of shared nodes.
use super::{Expression, FunctionCallExpression, InfixExpression, PrefixExpression};
use std::fmt;

#[derive(Clone, Copy, Debug, PartialEq, Eq, Hash)]
pub enum ExpressionFunction {
    Cis,
    Cosine,
    Exponent,
    Sine,
    SquareRoot,
}

#[derive(Clone, Copy, Debug, PartialEq, Eq, Hash)]
pub enum PrefixOperator {
    Plus,
    Minus,
}

#[derive(Clone, Copy, Debug, PartialEq, Eq, Hash)]
pub enum InfixOperator {
    Caret,
    Plus,
    Minus,
    Slash,
    Star,
}

impl fmt::Display for ExpressionFunction {
    fn fmt(&self, f: &mut fmt::Formatter) -> fmt::Result {
        f.write_str(match self {
            Self::Cis => "cis",
            Self::Cosine => "cos",
            Self::Exponent => "exp",
            Self::Sine => "sin",
            Self::SquareRoot => "sqrt",
        })
    }
}

impl fmt::Display for PrefixOperator {
    fn fmt(&self, f: &mut fmt::Formatter) -> fmt::Result {
        f.write_str(match self {
            Self::Plus => "+",
            Self::Minus => "-",
        })
    }
}

impl fmt::Display for InfixOperator {
    fn fmt(&self, f: &mut fmt::Formatter) -> fmt::Result {
        f.write_str(match self {
            Self::Caret => "^",
            Self::Plus => "+",
            Self::Minus => "-",
            Self::Slash => "/",
            Self::Star => "*",
        })
    }
}

pub mod interned {
    use super::*;
    use internment::ArcIntern;
    use num_complex::Complex64;

    type Node = ArcIntern<Expression>;

    pub fn number(x: Complex64) -> Node {
        ArcIntern::new(Expression::Number(x))
    }

    pub fn function_call(function: ExpressionFunction, expression: Node) -> Node {
        ArcIntern::new(Expression::FunctionCall(FunctionCallExpression { function, expression }))
    }

    pub fn infix(left: Node, operator: InfixOperator, right: Node) -> Node {
        ArcIntern::new(Expression::Infix(InfixExpression { left, operator, right }))
    }

    pub fn prefix(operator: PrefixOperator, expression: Node) -> Node {
        ArcIntern::new(Expression::Prefix(PrefixExpression { operator, expression }))
    }

    pub fn neg(expression: Node) -> Node {
        prefix(PrefixOperator::Minus, expression)
    }

    pub fn add(left: Node, right: Node) -> Node {
        infix(left, InfixOperator::Plus, right)
    }

    pub fn sub(left: Node, right: Node) -> Node {
        infix(left, InfixOperator::Minus, right)
    }

    pub fn mul(left: Node, right: Node) -> Node {
        infix(left, InfixOperator::Star, right)
    }

    pub fn div(left: Node, right: Node) -> Node {
        infix(left, InfixOperator::Slash, right)
    }
}
