//! Join types and literal values.
use std::fmt;

#[derive(Debug, Clone, Copy, PartialEq, Eq, Hash)]
pub enum JoinType {
    Inner,
    Left,
    Right,
    Full,
    LeftSemi,
    LeftAnti,
    RightSemi,
    RightAnti,
    LeftMark,
    RightMark,
}

#[derive(Debug, Clone, PartialEq, Eq, Hash)]
pub enum ScalarValue {
    Null,
    Boolean(Option<bool>),
    Int64(Option<i64>),
}
impl ScalarValue {
    pub fn is_null(&self) -> bool {
        matches!(self, Self::Null | Self::Boolean(None) | Self::Int64(None))
    }
}
impl fmt::Display for ScalarValue {
    fn fmt(&self, f: &mut fmt::Formatter<'_>) -> fmt::Result {
        match self {
            Self::Null => f.write_str("NULL"),
            Self::Boolean(v) => write!(f, "Boolean({v:?})"),
            Self::Int64(Some(v)) => write!(f, "Int64({v})"),
            Self::Int64(None) => f.write_str("Int64(NULL)"),
        }
    }
}
