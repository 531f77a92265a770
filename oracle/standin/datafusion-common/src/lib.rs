//! Stand-in for `datafusion-common`: what the texts of `optimize_projections` and `utils.rs` name, and no more.
//! Every place that decides something the texts do not show carries a mark `[D..]`; oracle/README.md lists them.

mod dependencies;
mod errors;
mod map;
mod names;
mod schema;
pub mod tree_node;
mod values;

pub use dependencies::{
    Dependency, FunctionalDependence, FunctionalDependencies, column_places, get_required_group_by_exprs_indices,
};
pub use errors::{DataFusionError, Result};
pub use map::HashMap;
pub use names::{Column, TableReference};
pub use schema::{DFSchema, DFSchemaRef, number_field};
pub use values::{JoinType, ScalarValue};

/// Named by a part of utils.rs that the pass never calls.
pub mod cast {
    use arrow::array::{ArrayRef, BooleanArray};
    pub fn as_boolean_array(_: &ArrayRef) -> crate::Result<&BooleanArray> {
        unimplemented!("stand-in")
    }
}
