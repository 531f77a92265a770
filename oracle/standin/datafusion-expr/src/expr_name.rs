//! The text of an expression.
use crate::Expr;
use std::fmt;

/// [D12] What matters for the pass: a column shows as `name` or `qualifier.name`, and nothing but a bare column
/// without qualifier ever shows as a field name of the rig (`c` and digits).
pub struct SchemaName<'a>(pub &'a Expr);
impl fmt::Display for SchemaName<'_> {
    fn fmt(&self, f: &mut fmt::Formatter<'_>) -> fmt::Result {
        let list = |f: &mut fmt::Formatter<'_>, es: &[Expr]| {
            for (i, e) in es.iter().enumerate() {
                write!(f, "{}{}", if i == 0 { "" } else { "," }, SchemaName(e))?;
            }
            Ok(())
        };
        match self.0 {
            Expr::Alias(a) => match &a.relation {
                Some(r) => write!(f, "{r}.{}", a.name),
                None => f.write_str(&a.name),
            },
            Expr::Column(c) => write!(f, "{c}"),
            Expr::Literal(v, _) => write!(f, "{v}"),
            Expr::Not(e) => write!(f, "NOT {}", SchemaName(e)),
            Expr::IsNull(e) => write!(f, "{} IS NULL", SchemaName(e)),
            Expr::BinaryExpr(b) => {
                let side = |f: &mut fmt::Formatter<'_>, e: &Expr| match e {
                    Expr::BinaryExpr(_) => write!(f, "({})", SchemaName(e)),
                    e => write!(f, "{}", SchemaName(e)),
                };
                side(f, &b.left)?;
                write!(f, " {} ", b.op)?;
                side(f, &b.right)
            }
            Expr::AggregateFunction(a) => {
                write!(f, "agg{}(", a.func)?;
                list(f, &a.args)?;
                f.write_str(")")
            }
            Expr::WindowFunction(w) => {
                write!(f, "win{}(", w.fun)?;
                list(f, &w.args)?;
                f.write_str(") PARTITION BY [")?;
                list(f, &w.partition_by)?;
                f.write_str("] ORDER BY [")?;
                for k in &w.order_by {
                    write!(f, "{} {} {},", SchemaName(&k.expr), k.asc, k.nulls_first)?;
                }
                f.write_str("]")
            }
            _ => f.write_str("?"),
        }
    }
}
