//! Field lists.
use crate::{Column, DataFusionError, FunctionalDependencies, Result, TableReference};
use arrow::datatypes::{DataType, Field, FieldRef, Fields, Schema};
use std::collections::BTreeSet;
use std::sync::Arc;

#[derive(Debug, Clone, PartialEq, Eq)]
pub struct DFSchema {
    inner: Arc<Schema>,
    field_qualifiers: Vec<Option<TableReference>>,
    functional_dependencies: FunctionalDependencies,
}
pub type DFSchemaRef = Arc<DFSchema>;

impl DFSchema {
    pub fn empty() -> Self {
        Self {
            inner: Arc::new(Schema { fields: vec![] }),
            field_qualifiers: vec![],
            functional_dependencies: FunctionalDependencies::NONE,
        }
    }
    /// [D3] Refuses document 01's CLASH: two equal pairs, or one name both with and without qualifier.
    pub fn new_qualified(parts: Vec<(Option<TableReference>, FieldRef)>) -> Result<Self> {
        let (field_qualifiers, fields): (Vec<_>, Fields) = parts.into_iter().unzip();
        let s = Self {
            inner: Arc::new(Schema { fields }),
            field_qualifiers,
            functional_dependencies: FunctionalDependencies::NONE,
        };
        s.check_names()?;
        Ok(s)
    }
    fn check_names(&self) -> Result<()> {
        let mut with = BTreeSet::new();
        let mut without = BTreeSet::new();
        for (q, f) in self.iter() {
            let fresh = match q {
                Some(q) => with.insert((q, f.name())),
                None => without.insert(f.name()),
            };
            if !fresh {
                return Err(DataFusionError::SchemaError(format!("two fields {q:?} {}", f.name())));
            }
        }
        for (_, name) in with {
            if without.contains(name) {
                return Err(DataFusionError::SchemaError(format!("ambiguous {name}")));
            }
        }
        Ok(())
    }
    pub fn fields(&self) -> &Fields {
        &self.inner.fields
    }
    pub fn iter(&self) -> impl Iterator<Item = (Option<&TableReference>, &FieldRef)> {
        self.field_qualifiers.iter().map(Option::as_ref).zip(self.inner.fields.iter())
    }
    pub fn qualified_field(&self, i: usize) -> (Option<&TableReference>, &FieldRef) {
        (self.field_qualifiers[i].as_ref(), &self.inner.fields[i])
    }
    /// [D4] Document 02: without a qualifier the first field of that name, with one the exact pair.
    pub fn maybe_index_of_column(&self, col: &Column) -> Option<usize> {
        self.iter().position(|(q, f)| fits(col, q, f))
    }
    pub fn index_of_column(&self, col: &Column) -> Result<usize> {
        self.maybe_index_of_column(col).ok_or_else(|| DataFusionError::SchemaError(format!("no field {col}")))
    }
    /// [D13] As constructors look a column up: where two fields fit it is refused.
    pub fn field_from_column(&self, col: &Column) -> Result<&FieldRef> {
        let at = self.index_of_column(col)?;
        if col.relation.is_none() && self.iter().skip(at + 1).any(|(q, f)| fits(col, q, f)) {
            return Err(DataFusionError::SchemaError(format!("ambiguous reference {col}")));
        }
        Ok(&self.inner.fields[at])
    }
    pub fn functional_dependencies(&self) -> &FunctionalDependencies {
        &self.functional_dependencies
    }
    /// [D26] The list with these dependencies, which must name fields that it has.
    pub fn with_functional_dependencies(mut self, all: FunctionalDependencies) -> Result<Self> {
        if !all.fit(self.inner.fields.len()) {
            return Err(DataFusionError::Plan("a dependency on a field that is not there".into()));
        }
        self.functional_dependencies = all;
        Ok(self)
    }
    /// The fields' texts, as a column's [D12].
    pub fn field_names(&self) -> Vec<String> {
        self.iter().map(|f| Column::from(f).to_string()).collect()
    }
}
fn fits(col: &Column, q: Option<&TableReference>, f: &FieldRef) -> bool {
    f.name() == &col.name && (col.relation.is_none() || q == col.relation.as_ref())
}
impl TryFrom<Arc<Schema>> for DFSchema {
    type Error = DataFusionError;
    fn try_from(s: Arc<Schema>) -> Result<Self> {
        Self::new_qualified(s.fields.iter().map(|f| (None, Arc::clone(f))).collect())
    }
}

/// A field of the rig: always a number that may be missing.
pub fn number_field(name: impl Into<String>) -> FieldRef {
    Arc::new(Field::new(name, DataType::Int64, true))
}
