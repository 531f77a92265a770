//! Errors, and the macros that make them.
use std::fmt;

#[derive(Debug, Clone, PartialEq)]
pub enum DataFusionError {
    Internal(String),
    Plan(String),
    SchemaError(String),
}
impl fmt::Display for DataFusionError {
    fn fmt(&self, f: &mut fmt::Formatter<'_>) -> fmt::Result {
        match self {
            Self::Internal(s) => write!(f, "internal: {s}"),
            Self::Plan(s) => write!(f, "plan: {s}"),
            Self::SchemaError(s) => write!(f, "schema: {s}"),
        }
    }
}
impl From<arrow::array::ArrowError> for DataFusionError {
    fn from(_: arrow::array::ArrowError) -> Self {
        Self::Internal("arrow".into())
    }
}
pub type Result<T, E = DataFusionError> = std::result::Result<T, E>;

#[macro_export]
macro_rules! internal_datafusion_err {
    ($($arg:tt)*) => { $crate::DataFusionError::Internal(format!($($arg)*)) };
}
#[macro_export]
macro_rules! internal_err {
    ($($arg:tt)*) => { Err($crate::DataFusionError::Internal(format!($($arg)*))) };
}
#[macro_export]
macro_rules! assert_eq_or_internal_err {
    ($l:expr, $r:expr, $($arg:tt)*) => {
        if $l != $r { return $crate::internal_err!($($arg)*); }
    };
}
