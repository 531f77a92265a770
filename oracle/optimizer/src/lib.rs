//! The crate that the unchanged texts are compiled into. The modules `optimize_projections` (with its
//! `required_indices`) and `utils` are the published texts, copied byte for byte by build.rs; the rest is a stand-in.

pub mod optimizer;
pub use optimizer::{OptimizerConfig, OptimizerRule};

/// Named by utils.rs, never called by the pass.
mod analyzer {
    pub mod type_coercion {
        use datafusion_common::DFSchema;
        use datafusion_common::tree_node::TreeNodeRewriter;
        use datafusion_expr::Expr;
        pub struct TypeCoercionRewriter<'a> {
            #[expect(dead_code)]
            pub schema: &'a DFSchema,
        }
        impl TreeNodeRewriter for TypeCoercionRewriter<'_> {
            type Node = Expr;
        }
    }
}

include!(concat!(env!("OUT_DIR"), "/text.rs"));
