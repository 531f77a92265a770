//! Expressions, items and keys of a plan file.
use crate::Answer;
use crate::fields::Reader;
use datafusion_common::{Column, ScalarValue};
use datafusion_expr::Expr;
use datafusion_expr::expr::{BinaryExpr, Operator, Sort as Key};

impl Reader<'_> {
    pub fn expr(&mut self, item: bool) -> Answer<Expr> {
        self.tags += 1;
        if self.tags > 4096 {
            return Err("many tags".into());
        }
        let tag = self.u8()?;
        if item && tag != 0 && tag != 12 {
            return self.bad("item");
        }
        Ok(match tag {
            0 => {
                let (relation, name) = self.pair()?;
                Expr::Column(Column { relation, name })
            }
            1 => {
                let v = self.u32()? as u64 | (self.u32()? as u64) << 32;
                Expr::Literal(ScalarValue::Int64(Some(v as i64)), None)
            }
            2 => Expr::Literal(ScalarValue::Int64(None), None),
            3 => Expr::Not(Box::new(self.expr(false)?)),
            4 => Expr::IsNull(Box::new(self.expr(false)?)),
            5..=11 => {
                let left = Box::new(self.expr(false)?);
                let right = Box::new(self.expr(false)?);
                Expr::BinaryExpr(BinaryExpr { left, op: Operator::ALL[tag as usize - 5], right })
            }
            12 if item => {
                let (q, n) = self.pair()?;
                self.expr(false)?.alias_qualified(q, n)
            }
            _ => return self.bad("expression tag"),
        })
    }
    pub fn exprs(&mut self, n: usize, item: bool) -> Answer<Vec<Expr>> {
        (0..n).map(|_| self.expr(item)).collect()
    }
    pub fn keys(&mut self, n: usize) -> Answer<Vec<Key>> {
        (0..n)
            .map(|_| {
                let f = self.u8()?;
                if f > 3 {
                    return self.bad("key flags");
                }
                Ok(Key { expr: self.expr(false)?, asc: f & 1 == 0, nulls_first: f & 2 != 0 })
            })
            .collect()
    }
    /// A function's number, and its argument's place: function 0 has none.
    pub fn function(&mut self) -> Answer<u8> {
        let f = self.u8()?;
        if f > 4 { self.bad("function") } else { Ok(f) }
    }
    pub fn argument(&mut self, function: u8) -> Answer<Vec<Expr>> {
        self.exprs((function != 0) as usize, false)
    }
}
