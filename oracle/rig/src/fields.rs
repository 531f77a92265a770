//! Numbers, names and pairs of a plan file.
use crate::Answer;
use datafusion_common::TableReference;
use datafusion_expr::TableSource;
use std::sync::Arc;

/// What a version of the file decides: bytes of a wide count and of a column index, and the limits.
#[derive(Clone, Copy)]
pub struct Version {
    pub wide: usize,
    pub columns: usize,
    pub items: usize,
    pub fields: usize,
    /// are keys and scan filters in the file?
    pub late: bool,
}

pub const VERSIONS: [Version; 2] = [
    Version { wide: 1, columns: 64, items: 128, fields: 128, late: false },
    Version { wide: 2, columns: 512, items: 512, fields: 512, late: true },
];

pub struct Reader<'a> {
    pub src: &'a [u8],
    pub at: usize,
    pub version: Version,
    pub tables: Vec<Arc<TableSource>>,
    /// qualifiers seen, so that equal ones share their text
    pub qualifiers: Vec<(u16, TableReference)>,
    pub nodes: usize,
    pub tags: usize,
}

/// The name of a number: `c` and its digits. No dot, as document 01's domain of equality asks.
pub fn name(n: u16) -> String {
    let mut digits = [0u8; 5];
    let (mut first, mut rest) = (5, n);
    loop {
        first -= 1;
        digits[first] = b'0' + (rest % 10) as u8;
        rest /= 10;
        if rest == 0 {
            break;
        }
    }
    let mut s = String::with_capacity(6 - first);
    s.push('c');
    s.extend(digits[first..].iter().map(|&d| d as char));
    s
}

impl Reader<'_> {
    pub fn u8(&mut self) -> Answer<u8> {
        let b = *self.src.get(self.at).ok_or_else(|| format!("cut at {}", self.at))?;
        self.at += 1;
        Ok(b)
    }
    pub fn u16(&mut self) -> Answer<u16> {
        Ok(u16::from_le_bytes([self.u8()?, self.u8()?]))
    }
    pub fn u32(&mut self) -> Answer<u32> {
        Ok(self.u16()? as u32 | (self.u16()? as u32) << 16)
    }
    pub fn count(&mut self, limit: u8) -> Answer<usize> {
        let n = self.u8()?;
        if n > limit { Err(format!("count {n} over {limit}")) } else { Ok(n as usize) }
    }
    /// A number of the version's width.
    pub fn wide(&mut self) -> Answer<usize> {
        if self.version.wide == 1 { self.u8().map(usize::from) } else { self.u16().map(usize::from) }
    }
    pub fn wide_count(&mut self, limit: usize) -> Answer<usize> {
        let n = self.wide()?;
        if n > limit { Err(format!("count {n} over {limit}")) } else { Ok(n) }
    }
    pub fn bad<T>(&self, what: &str) -> Answer<T> {
        Err(format!("value: {what} before {}", self.at))
    }
    pub fn qualifier(&mut self, q: u16) -> TableReference {
        if let Some((_, t)) = self.qualifiers.iter().find(|(n, _)| *n == q) {
            return t.clone();
        }
        let t = TableReference::bare(format!("q{q}"));
        self.qualifiers.push((q, t.clone()));
        t
    }
    pub fn pair(&mut self) -> Answer<(Option<TableReference>, String)> {
        let (q, n) = (self.u16()?, self.u16()?);
        if n == 0 {
            return self.bad("name 0");
        }
        Ok(((q != 0).then(|| self.qualifier(q)), name(n)))
    }
}
