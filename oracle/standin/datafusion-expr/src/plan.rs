//! What the texts ask of any plan node.
use crate::Expr;
use crate::nodes::*;
use datafusion_common::tree_node::{Transformed, TreeNodeRecursion};
use datafusion_common::{DFSchemaRef, Result};

impl LogicalPlan {
    /// [D15] Nodes with their own field list keep it stored (the texts show this for Projection, EmptyRelation and, in
    /// eliminate_join.rs and optimize_unions.rs, for Join and Union); the others show their input's.
    pub fn schema(&self) -> &DFSchemaRef {
        match self {
            Self::Projection(n) => &n.schema,
            Self::Filter(n) => n.input.schema(),
            Self::Sort(n) => n.input.schema(),
            Self::Limit(n) => n.input.schema(),
            Self::Aggregate(n) => &n.schema,
            Self::Window(n) => &n.schema,
            Self::SubqueryAlias(n) => &n.schema,
            Self::Union(n) => &n.schema,
            Self::Distinct(Distinct::All(i)) => i.schema(),
            Self::Join(n) => &n.schema,
            Self::TableScan(n) => &n.projected_schema,
            Self::EmptyRelation(n) => &n.schema,
            Self::Extension(n) => n.node.inputs()[0].schema(),
            _ => unreachable!("absent node kind"),
        }
    }

    pub fn inputs(&self) -> Vec<&LogicalPlan> {
        match self {
            Self::Projection(n) => vec![&n.input],
            Self::Filter(n) => vec![&n.input],
            Self::Sort(n) => vec![&n.input],
            Self::Limit(n) => vec![&n.input],
            Self::Aggregate(n) => vec![&n.input],
            Self::Window(n) => vec![&n.input],
            Self::SubqueryAlias(n) => vec![&n.input],
            Self::Union(n) => n.inputs.iter().map(|i| i.as_ref()).collect(),
            Self::Distinct(Distinct::All(i)) => vec![i],
            Self::Join(n) => vec![&n.left, &n.right],
            Self::TableScan(_) | Self::EmptyRelation(_) => vec![],
            Self::Extension(n) => n.node.inputs(),
            _ => unreachable!("absent node kind"),
        }
    }

    /// [D22] A node's own expressions, as document 01's table of nodes has them. Only the kinds that the texts ask about (through `with_plan_exprs`).
    pub fn apply_expressions<F>(&self, mut f: F) -> Result<TreeNodeRecursion>
    where
        F: FnMut(&Expr) -> Result<TreeNodeRecursion>,
    {
        match self {
            Self::Filter(n) => {
                f(&n.predicate)?;
            }
            Self::Sort(n) => {
                for k in &n.expr {
                    f(&k.expr)?;
                }
            }
            Self::Limit(n) => {
                for e in n.skip.iter().chain(&n.fetch) {
                    f(e)?;
                }
            }
            Self::Join(n) => {
                for (l, r) in &n.on {
                    f(l)?;
                    f(r)?;
                }
                if let Some(e) = &n.filter {
                    f(e)?;
                }
            }
            Self::Union(_) | Self::SubqueryAlias(_) | Self::Extension(_) => {}
            _ => unreachable!("the texts do not ask this node kind"),
        }
        Ok(TreeNodeRecursion::Continue)
    }

    /// [D16] There are no subqueries; expressions are not searched for any.
    pub fn map_uncorrelated_subqueries<F>(self, _: F) -> Result<Transformed<Self>>
    where
        F: FnMut(Self) -> Result<Transformed<Self>>,
    {
        Ok(Transformed::no(self))
    }

    /// [D17] Fields worked out anew from the inputs, by the constructors.
    pub fn recompute_schema(self) -> Result<Self> {
        Ok(match self {
            Self::Filter(n) => Self::Filter(Filter::try_new(n.predicate, n.input)?),
            Self::SubqueryAlias(n) => Self::SubqueryAlias(SubqueryAlias::try_new(n.input, n.alias)?),
            Self::Union(n) => Self::Union(Union::try_new(n.inputs)?),
            Self::Join(n) => Self::Join(Join::try_new(n.left, n.right, n.on, n.filter, n.join_type)?),
            n @ (Self::Sort(_) | Self::Limit(_) | Self::Distinct(_) | Self::Extension(_)) => n,
            _ => unreachable!("the texts do not ask this node kind"),
        })
    }

    pub fn display_indent(&self) -> String {
        unimplemented!("stand-in")
    }
    pub fn display_indent_schema(&self) -> String {
        unimplemented!("stand-in")
    }
}
