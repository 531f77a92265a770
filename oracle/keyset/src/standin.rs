//! What the texts name: expressions, which are equal if they are built alike, operators, and a set that keeps the order of insertion.
use std::cell::Cell;

#[derive(Debug, Clone, PartialEq, Eq, Hash)]
pub enum Expr {
    Column(u16, u16),
    Literal(i64),
    Missing,
    Not(Box<Expr>),
    IsMissing(Box<Expr>),
    BinaryExpr(BinaryExpr),
}

#[derive(Debug, Clone, PartialEq, Eq, Hash)]
pub struct BinaryExpr {
    pub left: Box<Expr>,
    pub op: Operator,
    pub right: Box<Expr>,
}

impl BinaryExpr {
    pub fn new(left: Box<Expr>, op: Operator, right: Box<Expr>) -> Self {
        Self { left, op, right }
    }
}

/// In the order of their tags, from 5 on.
#[derive(Debug, Clone, Copy, PartialEq, Eq, Hash)]
pub enum Operator {
    Plus,
    Minus,
    Multiply,
    Eq,
    Lt,
    And,
    Or,
}

pub trait Equivalent<K: ?Sized> {
    fn equivalent(&self, key: &K) -> bool;
}

thread_local! {
    /// The size of the largest set since it was last taken: the texts keep their temporary sets to themselves.
    static LARGEST: Cell<usize> = const { Cell::new(0) };
}

/// The size of the largest set since the last call.
pub fn largest() -> usize {
    LARGEST.replace(0)
}

#[derive(Debug)]
pub struct IndexSet<T> {
    all: Vec<T>,
}

impl<T: PartialEq> IndexSet<T> {
    pub fn new() -> Self {
        Self { all: vec![] }
    }
    pub fn contains<Q: Equivalent<T>>(&self, value: &Q) -> bool {
        self.all.iter().any(|x| value.equivalent(x))
    }
    pub fn insert(&mut self, value: T) -> bool {
        let is_new = !self.all.contains(&value);
        if is_new {
            self.all.push(value);
            LARGEST.set(LARGEST.get().max(self.all.len()));
        }
        is_new
    }
    pub fn iter(&self) -> std::slice::Iter<'_, T> {
        self.all.iter()
    }
    pub fn is_empty(&self) -> bool {
        self.all.is_empty()
    }
}
