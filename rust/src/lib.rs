//! Column pruning for query plans, by a proved library.
//!
//! A plan file and a request go in; a plan file comes out whose scans read only the columns that are needed. In house
//! mode no row and no value is lost: that is proved of the library. This crate only carries slices across.
//!
//! A file of version 2 may declare a key for each table: that no two of its rows have the same values in all key columns, and
//! that none of these values is missing. By it both modes drop groups that were not requested; over tables that break a key the
//! rewritten plan can give other rows. A file without keys, as every file of version 1, says nothing of its tables.
//!
//! ```
//! use simmerroof::{Mode, Pruner};
//!
//! // Projection[a] over a scan of (a, b, c)
//! let file = b"CPL\x01\0\x01\x03\x01\0\x02\0\x03\0\x01\x01\0\x01\0\x01\0\x0b\0\x01\0\0";
//! let mut out = [0; 64];
//! let written = Pruner::new().prune_all(Mode::House, 0, file, &mut out)?;
//! // a scan of column 0 alone
//! assert_eq!(&out[..written], b"CPL\x01\0\x01\x03\x01\0\x02\0\x03\0\x0b\0\x01\0\x01\x01\0");
//! # Ok::<(), simmerroof::Refusal>(())
//! ```
mod abi;
mod refusal;

pub use refusal::{Kind, Refusal};

/// Which rules decide.
#[derive(Debug, Clone, Copy, PartialEq, Eq, Hash)]
pub enum Mode {
    /// What the Rust crate gives, up to docs/DIFFERENCES.md. It folds two equal projections into one, which can change values.
    Crate = 0,
    /// Loses no row and no value; where the file declares keys, of tables that keep them.
    House = 1,
}

fn accepted(code: u64, place: u64) -> Result<(), Refusal> {
    match Kind::from_code(code) {
        None => {
            assert!(code == 0, "the library answered code {code}, which its contract rules out");
            Ok(())
        }
        Some(kind) => Err(Refusal { kind, place: place as usize }),
    }
}

fn result([code, length, place]: abi::Answer) -> Result<usize, Refusal> {
    accepted(code, place).map(|_| length as usize)
}

/// What an accepted plan file has.
#[derive(Debug, Clone, Copy, PartialEq, Eq, Hash)]
pub struct Shape {
    /// The number of its nodes.
    pub nodes: usize,
    /// The number of its root's fields.
    pub fields: usize,
}

/// Is this an accepted plan file? It is read and checked as [`prune`] does it before it looks at the request, so a refusal here
/// ([`Kind::Mark`] to [`Kind::Fields`], or [`Kind::Ambiguous`]) is what `prune` would answer, whatever the request.
///
/// The library keeps its working arrays on the stack: 0.9 MB for a file of version 1, 2.8 MB for one of version 2, which is more than
/// the 2 MiB that Rust gives a thread; 4 MiB are enough for both.
pub fn check(file: &[u8]) -> Result<Shape, Refusal> {
    let [code, place, nodes, fields] = abi::check(file);
    accepted(code, place).map(|_| Shape { nodes: nodes as usize, fields: fields as usize })
}

/// Narrows the plan for the fields in `request`: indices of the root's fields, strictly increasing. Writes the result to
/// the front of `out` and returns its length; what lies behind it stays. A refusal changes no byte of `out`. What a file's keys
/// ask of its tables is said [above](crate).
///
/// The library keeps its working arrays on the stack and clears them in every call: 1.2 MB for a file of version 1, 3.2 MB for
/// one of version 2. That is more than the 2 MiB that Rust gives a thread where plans are deep or of version 2; 4 MiB are enough
/// for version 1, 8 MiB for version 2. To prune many plans, or on such a thread, use a [`Pruner`].
pub fn prune(mode: Mode, mask: u16, file: &[u8], request: &[u16], out: &mut [u8]) -> Result<usize, Refusal> {
    result(abi::prune(mode as u8, mask, file, Some(request), out))
}

/// As [`prune`], asking for every field of the root.
pub fn prune_all(mode: Mode, mask: u16, file: &[u8], out: &mut [u8]) -> Result<usize, Refusal> {
    result(abi::prune(mode as u8, mask, file, None, out))
}

/// The plan of a file as text that people can read: one node a line, two spaces a level, each line ended by a newline
/// (docs/FORMAT.md). No two plans have one text. A refusal is that of [`check`], and the working arrays are on the stack as there.
///
/// ```
/// // Projection[a] over a scan of (a, b, c)
/// let file = b"CPL\x01\0\x01\x03\x01\0\x02\0\x03\0\x01\x01\0\x01\0\x01\0\x0b\0\x01\0\0";
/// assert_eq!(simmerroof::list(file)?, "projection [q1.c1]\n  scan 0 as q1\n");
/// # Ok::<(), simmerroof::Refusal>(())
/// ```
pub fn list(file: &[u8]) -> Result<String, Refusal> {
    let mut out = vec![0; 8 * file.len() + 256];
    loop {
        match list_into(file, &mut out) {
            Err(Refusal { kind: Kind::Room, place }) => out.resize(place, 0),
            Err(refusal) => return Err(refusal),
            Ok(length) => {
                out.truncate(length);
                return Ok(String::from_utf8(out).expect("a listing has small letters, digits and signs alone"));
            }
        }
    }
}

/// As [`list`], written to the front of `out`; returns the length, or [`Kind::Room`] with the length needed.
pub fn list_into(file: &[u8], out: &mut [u8]) -> Result<usize, Refusal> {
    result(abi::list_plan(file, out))
}

/// The join keys of a predicate: the pairs of expressions that are both present and equal on every row where it is yes, as one
/// byte n (at most 64) and n times two expressions. A predicate is one expression in the file's form and nothing after it.
/// Writes to the front of `out` and returns the length; an output as long as the predicate always has room.
pub fn join_keys(predicate: &[u8], out: &mut [u8]) -> Result<usize, Refusal> {
    result(abi::join_keys(predicate, out))
}

/// What is left of a predicate where all pairs of `keys` (as [`join_keys`] writes them) are present and equal: 0 for nothing, which
/// counts as yes, or 1 and an expression that is yes exactly where the predicate is. An output one byte longer than the
/// predicate always has room.
pub fn without_keys(predicate: &[u8], keys: &[u8], out: &mut [u8]) -> Result<usize, Refusal> {
    result(abi::without_keys(predicate, keys, out))
}

/// Holds the library's working arrays (3,170,720 bytes, for files of both versions) on the heap, made once and never cleared
/// between calls.
pub struct Pruner {
    work: Box<abi::Work>,
}

impl Default for Pruner {
    fn default() -> Self {
        Self::new()
    }
}

impl Pruner {
    pub fn new() -> Self {
        Pruner { work: abi::Work::new() }
    }

    /// As the function [`prune`].
    pub fn prune(
        &mut self,
        mode: Mode,
        mask: u16,
        file: &[u8],
        request: &[u16],
        out: &mut [u8],
    ) -> Result<usize, Refusal> {
        result(abi::prune_in(mode as u8, mask, file, Some(request), out, &mut self.work))
    }

    /// As the function [`prune_all`].
    pub fn prune_all(&mut self, mode: Mode, mask: u16, file: &[u8], out: &mut [u8]) -> Result<usize, Refusal> {
        result(abi::prune_in(mode as u8, mask, file, None, out, &mut self.work))
    }

    /// The result as a vector of just its length.
    pub fn prune_to_vec(
        &mut self,
        mode: Mode,
        mask: u16,
        file: &[u8],
        request: Option<&[u16]>,
    ) -> Result<Vec<u8>, Refusal> {
        let mut out = vec![0; file.len() + 256];
        loop {
            match result(abi::prune_in(mode as u8, mask, file, request, &mut out, &mut self.work)) {
                Err(Refusal { kind: Kind::Room, place }) => out.resize(place, 0),
                Err(refusal) => return Err(refusal),
                Ok(length) => {
                    out.truncate(length);
                    return Ok(out);
                }
            }
        }
    }
}
