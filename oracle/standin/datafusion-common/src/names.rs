//! Qualifiers and columns.
use arrow::datatypes::FieldRef;
use std::fmt;
use std::sync::Arc;

/// [D1] Only the bare form: document 01's qualifier is one number.
#[derive(Debug, Clone, PartialEq, Eq, Hash, PartialOrd, Ord)]
pub enum TableReference {
    Bare { table: Arc<str> },
}
impl TableReference {
    pub fn bare(s: impl Into<Arc<str>>) -> Self {
        Self::Bare { table: s.into() }
    }
    pub fn table(&self) -> &str {
        match self {
            Self::Bare { table } => table,
        }
    }
}
impl From<&str> for TableReference {
    fn from(s: &str) -> Self {
        Self::bare(s)
    }
}
impl fmt::Display for TableReference {
    fn fmt(&self, f: &mut fmt::Formatter<'_>) -> fmt::Result {
        f.write_str(self.table())
    }
}

#[derive(Debug, Clone, PartialEq, Eq, Hash, PartialOrd, Ord)]
pub struct Column {
    pub relation: Option<TableReference>,
    pub name: String,
}
impl Column {
    pub fn new(relation: Option<impl Into<TableReference>>, name: impl Into<String>) -> Self {
        Self { relation: relation.map(Into::into), name: name.into() }
    }
    pub fn from_name(name: impl Into<String>) -> Self {
        Self { relation: None, name: name.into() }
    }
    pub fn name(&self) -> &str {
        &self.name
    }
}
impl fmt::Display for Column {
    fn fmt(&self, f: &mut fmt::Formatter<'_>) -> fmt::Result {
        match &self.relation {
            Some(r) => write!(f, "{r}.{}", self.name),
            None => f.write_str(&self.name),
        }
    }
}
impl From<(Option<&TableReference>, &FieldRef)> for Column {
    fn from((q, f): (Option<&TableReference>, &FieldRef)) -> Self {
        Self { relation: q.cloned(), name: f.name().clone() }
    }
}
