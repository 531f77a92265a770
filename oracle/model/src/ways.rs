//! What the Rust, on the stand-ins, does otherwise than documents 01 and 02, point by point (docs/DIFFERENCES.md has them under the same names). With
//! none of them the model is the documents'; with all of them it says what the texts give.

#[derive(Clone, Copy, PartialEq, Eq, PartialOrd, Ord, Debug)]
pub enum Way {
    /// A SubqueryAlias, Union or Join over an Empty leaf shows fields that are gone.
    Stale,
    /// A group with an alias that is no field of the input: all groups stay.
    AliasedGroup,
    /// A group with an alias that is a field of the input counts as that field, whatever it is.
    BorrowedName,
    /// A name alone that finds a field with a qualifier is not seen to be that field, in a group list and in a projection.
    NameAlone,
    /// In a projection's list places are counted among the items that are columns.
    CountedPlace,
    /// A key passes through a Distinct.
    ThroughDistinct,
    /// A key passes through a Window.
    ThroughWindow,
    /// A key passes through a semi or anti join on the side that is left.
    ThroughSemi,
    /// A key passes through an Inner, Left or Right join and determines its side.
    ThroughJoin,
    /// An Aggregate's groups are a key of its rows, and a key passes through.
    FromAggregate,
    /// A row number over all rows is a key.
    FromNumber,
}

pub const WAYS: [Way; 11] = [
    Way::Stale,
    Way::AliasedGroup,
    Way::BorrowedName,
    Way::NameAlone,
    Way::CountedPlace,
    Way::ThroughDistinct,
    Way::ThroughWindow,
    Way::ThroughSemi,
    Way::ThroughJoin,
    Way::FromAggregate,
    Way::FromNumber,
];

/// A set of ways.
#[derive(Clone, Copy, PartialEq, Eq, PartialOrd, Ord, Debug, Default)]
pub struct Ways(u16);

impl Ways {
    pub const NONE: Ways = Ways(0);
    pub const ALL: Ways = Ways((1 << WAYS.len()) - 1);

    pub fn has(self, way: Way) -> bool {
        self.0 >> way as u16 & 1 == 1
    }
    pub fn list(self) -> Vec<Way> {
        WAYS.into_iter().filter(|w| self.has(*w)).collect()
    }
    /// All sets, those of fewer ways first.
    pub fn sets() -> Vec<Ways> {
        let mut all: Vec<Ways> = (0..=Ways::ALL.0).map(Ways).collect();
        all.sort_by_key(|w| w.0.count_ones());
        all
    }
}
