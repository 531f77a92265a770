//! The refusals of documents 01 and 02.
use std::fmt;

/// Why a call wrote nothing, and where. The place is a byte offset, a node's number in prefix order, a position in the
/// request or a length, as the kind says.
#[derive(Debug, Clone, Copy, PartialEq, Eq, Hash)]
pub struct Refusal {
    pub kind: Kind,
    pub place: usize,
}

#[derive(Debug, Clone, Copy, PartialEq, Eq, Hash, PartialOrd, Ord)]
pub enum Kind {
    /// The push mask is above 4,095. Place 0.
    Setting = 1,
    /// Under 5 bytes, or another mark or version. Place 0.
    Mark = 2,
    /// A field runs past the end. Place: the field's offset.
    Cut = 3,
    /// A tag, flag, function, zero, table or column index that is not allowed. Place: the field's offset.
    Value = 4,
    /// A count above its limit, the 257th node, the 4,097th expression tag. Place: its offset.
    Many = 5,
    /// Bytes after the plan. Place: the first one's offset.
    Tail = 6,
    /// Two equal pairs, or one name both with and without qualifier, in a node's fields or a join's two sides. Place: node.
    Clash = 7,
    /// A column is not found: no field fits it. Place: node.
    Unknown = 8,
    /// A Union's inputs have unequal widths. Place: node.
    Width = 9,
    /// Over 128 fields, in version 2 over 512. Place: node.
    Fields = 10,
    /// The request is not strictly increasing, or not below the root's field count. Place: the first such position.
    Request = 11,
    /// A merge step's list or the result passes the node or tag limit. Place 0.
    Large = 12,
    /// The output is shorter than the result. Place: the length needed.
    Room = 13,
    /// Two fields fit a column, as where its name stands alone and two fields have it. Place: node.
    Ambiguous = 17,
    /// A set of over 64 pairs, of the functions on predicates. Place 0.
    Pairs = 18,
}

const KINDS: [(Kind, &str); 15] = [
    (Kind::Setting, "setting not allowed"),
    (Kind::Mark, "not a plan file of version 1 or 2"),
    (Kind::Cut, "a field runs past the end, at offset"),
    (Kind::Value, "a value is not allowed, at offset"),
    (Kind::Many, "too many, at offset"),
    (Kind::Tail, "bytes after the plan, from offset"),
    (Kind::Clash, "clashing fields at node"),
    (Kind::Unknown, "unknown column at node"),
    (Kind::Width, "a union of unequal widths at node"),
    (Kind::Fields, "too many fields at node"),
    (Kind::Request, "request not increasing or out of range at position"),
    (Kind::Large, "the rewritten plan passes a limit"),
    (Kind::Room, "the output is too short; bytes needed:"),
    (Kind::Ambiguous, "ambiguous column at node"),
    (Kind::Pairs, "a set of over 64 pairs"),
];

impl Kind {
    /// The code of the specification's table.
    pub fn code(self) -> u8 {
        self as u8
    }
    pub fn from_code(code: u64) -> Option<Kind> {
        KINDS.iter().map(|k| k.0).find(|kind| kind.code() as u64 == code)
    }
    fn words(self) -> &'static str {
        KINDS.iter().find(|k| k.0 == self).expect("a line for every kind").1
    }
}

impl fmt::Display for Refusal {
    fn fmt(&self, f: &mut fmt::Formatter<'_>) -> fmt::Result {
        let words = self.kind.words();
        match self.kind {
            Kind::Setting | Kind::Mark | Kind::Large | Kind::Pairs => f.write_str(words),
            _ => write!(f, "{words} {}", self.place),
        }
    }
}

impl std::error::Error for Refusal {}
