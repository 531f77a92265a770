//! Expressions and pairs as a plan file has them.
use crate::standin::Expr;
use crate::texts::Pair;

pub fn tags(e: &Expr) -> usize {
    match e {
        Expr::Column(..) | Expr::Literal(_) | Expr::Missing => 1,
        Expr::Not(a) | Expr::IsMissing(a) => 1 + tags(a),
        Expr::BinaryExpr(b) => 1 + tags(&b.left) + tags(&b.right),
    }
}

pub fn expr(e: &Expr, out: &mut Vec<u8>) {
    match e {
        Expr::Column(q, n) => {
            out.push(0);
            out.extend(q.to_le_bytes());
            out.extend(n.to_le_bytes());
        }
        Expr::Literal(v) => {
            out.push(1);
            out.extend(v.to_le_bytes());
        }
        Expr::Missing => out.push(2),
        Expr::Not(a) => {
            out.push(3);
            expr(a, out);
        }
        Expr::IsMissing(a) => {
            out.push(4);
            expr(a, out);
        }
        Expr::BinaryExpr(b) => {
            out.push(5 + b.op as u8);
            expr(&b.left, out);
            expr(&b.right, out);
        }
    }
}

pub fn predicate(e: &Expr) -> Vec<u8> {
    let mut out = vec![];
    expr(e, &mut out);
    out
}

/// A count, and as many pairs.
pub fn pairs(list: &[Pair]) -> Vec<u8> {
    let mut out = vec![list.len() as u8];
    for (l, r) in list {
        expr(l, &mut out);
        expr(r, &mut out);
    }
    out
}

/// 0, or 1 and an expression.
pub fn left(e: &Option<Expr>) -> Vec<u8> {
    let mut out = vec![e.is_some() as u8];
    if let Some(e) = e {
        expr(e, &mut out);
    }
    out
}
