//! Expressions, items and names over given fields.
use crate::random::Random;
use model::{Expr, Item, Key, Pair};

pub fn expr(r: &mut Random, fields: &[Pair], depth: usize) -> Expr {
    let n = r.below(100);
    if !fields.is_empty() && (depth == 0 || n < 45) {
        return Expr::Column(*r.pick(fields));
    }
    if depth == 0 || n < 60 {
        return match r.below(8) {
            0 => Expr::Missing,
            1..=3 => Expr::Literal(1),
            4 => Expr::Literal(*r.pick(&[i64::MIN, i64::MAX, -1, 1 << 40])),
            _ => Expr::Literal(r.between(0, 11) as i64 - 2),
        };
    }
    let part = |r: &mut Random| Box::new(expr(r, fields, depth - 1));
    match n {
        60..68 => Expr::Not(part(r)),
        68..74 => Expr::IsMissing(part(r)),
        _ => Expr::Binary(r.between(5, 11) as u8, part(r), part(r)),
    }
}

/// A pair that clashes with none of those used, which do not clash with each other.
pub fn fresh(r: &mut Random, used: &[Pair]) -> Pair {
    for _ in 0..20 {
        let p = (*r.pick(&[0, 0, 0, 1, 2, 3]), r.between(1, 8) as u16);
        if !clashes(used, p) {
            return p;
        }
    }
    (0, (1000 + used.len() * 80 + r.below(80)) as u16)
}

pub fn clashes(used: &[Pair], p: Pair) -> bool {
    used.iter().any(|u| u.1 == p.1 && (u.0 == p.0 || u.0 == 0 || p.0 == 0))
}

/// A list of items: bare columns, aliases that repeat a column's pair, other aliases.
pub fn items(r: &mut Random, fields: &[Pair], n: usize) -> Vec<Item> {
    let (mut out, mut used) = (vec![], vec![]);
    for _ in 0..n {
        let n = r.below(100);
        if !fields.is_empty() && n < 58 {
            let p = *r.pick(fields);
            if !clashes(&used, p) {
                used.push(p);
                out.push(match n {
                    0..45 => Item::column(p),
                    45..52 => Item::alias(p, Expr::Column(p)),
                    _ => Item::alias(p, expr(r, fields, 1)),
                });
                continue;
            }
        }
        let p = fresh(r, &used);
        if clashes(&used, p) {
            continue;
        }
        used.push(p);
        let depth = *r.pick(&[0, 1, 1, 2]);
        out.push(Item::alias(p, expr(r, fields, depth)));
    }
    out
}

pub fn keys(r: &mut Random, fields: &[Pair], least: usize) -> Vec<Key> {
    let n = r.between(least, 2);
    (0..n).map(|_| Key { flags: r.below(4) as u8, expr: expr(r, fields, 1) }).collect()
}
