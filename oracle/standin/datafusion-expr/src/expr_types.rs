//! The parts of expressions: document 01's, and the subquery forms that utils.rs takes apart (never built here).
use crate::Expr;
use crate::nodes::Subquery;
use datafusion_common::TableReference;
use std::fmt;

/// [D23] Aliases and literals carry no metadata.
#[derive(Debug, Clone, PartialEq, Eq, Hash)]
pub struct FieldMetadata;
impl FieldMetadata {
    pub fn is_empty(&self) -> bool {
        true
    }
}

#[derive(Debug, Clone, PartialEq, Eq, Hash)]
pub struct Alias {
    pub expr: Box<Expr>,
    pub relation: Option<TableReference>,
    pub name: String,
    pub metadata: Option<FieldMetadata>,
}

#[derive(Debug, Clone, Copy, PartialEq, Eq, Hash)]
pub enum Operator {
    Plus,
    Minus,
    Multiply,
    Eq,
    Lt,
    And,
    Or,
}
impl Operator {
    pub const ALL: [Operator; 7] = [Self::Plus, Self::Minus, Self::Multiply, Self::Eq, Self::Lt, Self::And, Self::Or];
}
impl fmt::Display for Operator {
    fn fmt(&self, f: &mut fmt::Formatter<'_>) -> fmt::Result {
        f.write_str(match self {
            Self::Plus => "+",
            Self::Minus => "-",
            Self::Multiply => "*",
            Self::Eq => "=",
            Self::Lt => "<",
            Self::And => "AND",
            Self::Or => "OR",
        })
    }
}

#[derive(Debug, Clone, PartialEq, Eq, Hash)]
pub struct BinaryExpr {
    pub left: Box<Expr>,
    pub op: Operator,
    pub right: Box<Expr>,
}

/// A sort key.
#[derive(Debug, Clone, PartialEq, Eq, Hash)]
pub struct Sort {
    pub expr: Expr,
    pub asc: bool,
    pub nulls_first: bool,
}

/// Document 01's functions 0 to 4; function 0 has no argument.
#[derive(Debug, Clone, PartialEq, Eq, Hash)]
pub struct AggregateFunction {
    pub func: u8,
    pub args: Vec<Expr>,
}
#[derive(Debug, Clone, PartialEq, Eq, Hash)]
pub struct WindowFunction {
    pub fun: u8,
    pub args: Vec<Expr>,
    pub partition_by: Vec<Expr>,
    pub order_by: Vec<Sort>,
}

#[derive(Debug, Clone, PartialEq, Eq, Hash)]
pub struct Exists {
    pub subquery: Subquery,
    pub negated: bool,
}
#[derive(Debug, Clone, PartialEq, Eq, Hash)]
pub struct InSubquery {
    pub expr: Box<Expr>,
    pub subquery: Subquery,
}
#[derive(Debug, Clone, PartialEq, Eq, Hash)]
pub struct SetComparison {
    pub expr: Box<Expr>,
    pub subquery: Subquery,
}
