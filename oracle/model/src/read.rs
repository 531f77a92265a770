//! Fields and expressions of a plan file, with codes 3 to 5.
use crate::plan::*;

#[derive(Clone, Copy, PartialEq, Eq, Debug)]
pub struct Fault {
    pub code: u64,
    pub place: u64,
}
pub type Read<T> = Result<T, Fault>;

pub const CUT: u64 = 3;
pub const VALUE: u64 = 4;
pub const MANY: u64 = 5;
pub const TAIL: u64 = 6;

pub fn fault<T>(code: u64, place: usize) -> Read<T> {
    Err(Fault { code, place: place as u64 })
}

/// A count that was read at an offset: VALUE below the least, MANY above the most.
fn within(at: usize, n: usize, least: usize, most: usize) -> Read<usize> {
    if n < least {
        return fault(VALUE, at);
    }
    if n > most { fault(MANY, at) } else { Ok(n) }
}

pub struct Reader<'a> {
    pub src: &'a [u8],
    pub at: usize,
    pub nodes: usize,
    pub tags: usize,
    pub catalogue: Catalogue,
}

impl Reader<'_> {
    fn field<const N: usize>(&mut self) -> Read<[u8; N]> {
        match self.src.get(self.at..self.at + N) {
            Some(b) => {
                self.at += N;
                Ok(b.try_into().unwrap())
            }
            None => fault(CUT, self.at),
        }
    }
    pub fn u8(&mut self) -> Read<u8> {
        Ok(self.field::<1>()?[0])
    }
    pub fn u16(&mut self) -> Read<u16> {
        self.field().map(u16::from_le_bytes)
    }
    pub fn u32(&mut self) -> Read<u32> {
        self.field().map(u32::from_le_bytes)
    }
    /// A byte that is at most `top`, else VALUE.
    pub fn at_most(&mut self, top: u8) -> Read<u8> {
        let at = self.at;
        let b = self.u8()?;
        if b > top { fault(VALUE, at) } else { Ok(b) }
    }
    /// A 16-bit number that is not 0, else VALUE.
    pub fn nonzero(&mut self) -> Read<u16> {
        let at = self.at;
        let n = self.u16()?;
        if n == 0 { fault(VALUE, at) } else { Ok(n) }
    }
    /// A number of the version's width: one byte or two.
    fn wide(&mut self) -> Read<u16> {
        if self.catalogue.version.wide == 1 { self.u8().map(u16::from) } else { self.u16() }
    }
    pub fn count(&mut self, least: u8, most: u8) -> Read<usize> {
        let at = self.at;
        let n = self.u8()?;
        within(at, n as usize, least as usize, most as usize)
    }
    /// A count of the version's width.
    pub fn wide_count(&mut self, least: usize, most: usize) -> Read<usize> {
        let at = self.at;
        let n = self.wide()?;
        within(at, n as usize, least, most)
    }
    /// A column index of the version's width, below n.
    pub fn index(&mut self, n: usize) -> Read<u16> {
        let at = self.at;
        let i = self.wide()?;
        if i as usize >= n { fault(VALUE, at) } else { Ok(i) }
    }
    /// A count that version 1 does not have: 0 there.
    pub fn late_count(&mut self) -> Read<usize> {
        self.catalogue.version.late.map_or(Ok(0), |most| self.count(0, most))
    }
    pub fn pair(&mut self) -> Read<Pair> {
        Ok((self.u16()?, self.nonzero()?))
    }
    /// A tag: CUT, then MANY; its value is judged by the caller.
    pub fn expr_tag(&mut self) -> Read<(usize, u8)> {
        let at = self.at;
        let t = self.u8()?;
        self.tags += 1;
        if self.tags > 4096 { fault(MANY, at) } else { Ok((at, t)) }
    }
    pub fn expr(&mut self) -> Read<Expr> {
        let (at, tag) = self.expr_tag()?;
        Ok(match tag {
            0 => Expr::Column(self.pair()?),
            1 => Expr::Literal(i64::from_le_bytes(self.field()?)),
            2 => Expr::Missing,
            3 => Expr::Not(Box::new(self.expr()?)),
            4 => Expr::IsMissing(Box::new(self.expr()?)),
            5..=11 => Expr::Binary(tag, Box::new(self.expr()?), Box::new(self.expr()?)),
            _ => return fault(VALUE, at),
        })
    }
    pub fn item(&mut self) -> Read<Item> {
        let (at, tag) = self.expr_tag()?;
        match tag {
            0 => Ok(Item::column(self.pair()?)),
            12 => Ok(Item::alias(self.pair()?, self.expr()?)),
            _ => fault(VALUE, at),
        }
    }
    pub fn key(&mut self) -> Read<Key> {
        Ok(Key { flags: self.at_most(3)?, expr: self.expr()? })
    }
    pub fn argument(&mut self, function: u8) -> Read<Option<Expr>> {
        if function == 0 { Ok(None) } else { self.expr().map(Some) }
    }
    pub fn list<T>(&mut self, n: usize, part: fn(&mut Self) -> Read<T>) -> Read<Vec<T>> {
        (0..n).map(|_| part(self)).collect()
    }
}
