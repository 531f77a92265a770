//! Functional dependencies of a field list.
//!
//! [D26] Nothing of this file is in the texts but the names `functional_dependencies`, `is_empty`, `iter`, the four parts of a dependence with the two
//! modes (eliminate_join.rs, replace_distinct_aggregate.rs) and what `get_required_group_by_exprs_indices` takes and gives. It is written by hand, from
//! memory of what the crate does in versions before 55, and is no copy of its text.
use crate::{Column, DFSchema, JoinType};

/// How often a row with certain values at the source may occur.
#[derive(Debug, Clone, Copy, PartialEq, Eq)]
pub enum Dependency {
    /// once: the source determines every field of the list
    Single,
    /// any number of times
    Multi,
}

/// Rows that are equal at the source are equal at the target.
#[derive(Debug, Clone, PartialEq, Eq)]
pub struct FunctionalDependence {
    pub source_indices: Vec<usize>,
    pub target_indices: Vec<usize>,
    pub nullable: bool,
    pub mode: Dependency,
}

#[derive(Debug, Clone, Default, PartialEq, Eq)]
pub struct FunctionalDependencies(Vec<FunctionalDependence>);

/// Where the entries stand in the list; what is not there is left out.
fn places_of(entries: &[usize], list: &[usize]) -> Vec<usize> {
    entries.iter().filter_map(|e| list.iter().position(|i| i == e)).collect()
}

impl FunctionalDependencies {
    pub const NONE: Self = Self(vec![]);

    pub fn is_empty(&self) -> bool {
        self.0.is_empty()
    }
    pub fn iter(&self) -> impl Iterator<Item = &FunctionalDependence> {
        self.0.iter()
    }
    /// Fields that determine all `width` fields, each row once.
    pub fn single(source_indices: Vec<usize>, width: usize, nullable: bool) -> Self {
        let target_indices = (0..width).collect();
        Self(vec![FunctionalDependence { source_indices, target_indices, nullable, mode: Dependency::Single }])
    }
    pub fn and(mut self, more: Self) -> Self {
        self.0.extend(more.0);
        self
    }
    pub(crate) fn fit(&self, width: usize) -> bool {
        self.iter().all(|d| d.source_indices.iter().chain(&d.target_indices).all(|i| *i < width))
    }

    /// [D26] A list made of the fields at `places`, with `width` fields in all: a dependence stays if each field of its source does.
    pub fn project(&self, places: &[usize], width: usize) -> Self {
        let carried = self.iter().filter_map(|d| {
            let source_indices = places_of(&d.source_indices, places);
            let target_indices = match d.mode {
                Dependency::Single => (0..width).collect(),
                Dependency::Multi => places_of(&d.target_indices, places),
            };
            let all = source_indices.len() == d.source_indices.len();
            all.then_some(FunctionalDependence { source_indices, target_indices, ..*d })
        });
        Self(carried.collect())
    }

    /// [D26] The list has grown to `width` fields, in the same rows.
    pub fn widen(mut self, width: usize) -> Self {
        for d in self.0.iter_mut().filter(|d| d.mode == Dependency::Single) {
            d.target_indices = (0..width).collect();
        }
        self
    }

    /// [D26] Of a join with the fields of both sides (a semi or anti join has its side's list whole). An inner, left or right join has both sides', each
    /// row any number of times; on the side that may be absent those that were nullable go and the others become so. A full join has none.
    pub fn join(&self, right: &Self, join_type: JoinType, left_width: usize) -> Self {
        use JoinType::*;
        match join_type {
            Full => Self::NONE,
            Inner | Left | Right => {
                let left = self.side(0, join_type == Right);
                left.and(right.side(left_width, join_type == Left))
            }
            _ => unreachable!("a side's own list"),
        }
    }
    fn side(&self, offset: usize, absent: bool) -> Self {
        let there = self.iter().filter(|d| !(absent && d.nullable));
        let moved = |list: &[usize]| list.iter().map(|i| i + offset).collect();
        let side = there.map(|d| FunctionalDependence {
            source_indices: moved(&d.source_indices),
            target_indices: moved(&d.target_indices),
            nullable: d.nullable || absent,
            mode: Dependency::Multi,
        });
        Self(side.collect())
    }

    /// [D26] Of an Aggregate: a dependence of the input whose source is among the groups, by their texts, stays and determines all fields; where none
    /// stays, the groups together do.
    pub fn aggregate(input: &DFSchema, groups: &[String], out: &DFSchema) -> Self {
        let (given, width) = (input.functional_dependencies(), out.fields().len());
        let names = if given.is_empty() { vec![] } else { input.field_names() };
        let mut all = vec![];
        for d in given.iter() {
            let source: Vec<&String> = d.source_indices.iter().map(|i| &names[*i]).collect();
            let source_indices: Vec<usize> = (0..groups.len()).filter(|g| source.contains(&&groups[*g])).collect();
            if source_indices.len() != d.source_indices.len() {
                continue;
            }
            let alone: Vec<String> = source_indices.iter().map(|g| groups[*g].clone()).collect();
            let reached = determined(input, &names, &alone);
            let covers = !reached.is_empty() && reached == determined(input, &names, groups);
            let mode = if covers { Dependency::Single } else { d.mode };
            let target_indices = (0..width).collect();
            all.push(FunctionalDependence { source_indices, target_indices, nullable: d.nullable, mode });
        }
        if all.is_empty() && !groups.is_empty() {
            let nullable = out.fields()[..groups.len()].iter().any(|f| f.is_nullable());
            return Self::single((0..groups.len()).collect(), width, nullable);
        }
        Self(all)
    }
}

/// The fields that fields of these texts determine.
fn determined(schema: &DFSchema, names: &[String], given: &[String]) -> Vec<usize> {
    let within = |d: &&FunctionalDependence| d.source_indices.iter().all(|i| given.contains(&names[*i]));
    let all = schema.functional_dependencies().iter().filter(within);
    let mut out: Vec<usize> = all.flat_map(|d| d.target_indices.iter().copied()).collect();
    out.sort_unstable();
    out.dedup();
    out
}

/// [D26] Of columns that are looked up by their text, the places; what has none is left out, so that a place is counted among those that have one.
pub fn column_places<'a>(columns: impl Iterator<Item = Option<&'a Column>>, schema: &DFSchema) -> Vec<usize> {
    let names = schema.field_names();
    columns.filter_map(|c| c.and_then(|c| names.iter().position(|n| *n == c.to_string()))).collect()
}

/// [D27] The groups that are enough, by their texts: none where a text is no field's. One dependence after the other, in order: where its source is
/// among what is left, its target goes and its source stays. Whether it is nullable, and its mode, is not asked.
pub fn get_required_group_by_exprs_indices(schema: &DFSchema, groups: &[String]) -> Option<Vec<usize>> {
    let names = schema.field_names();
    let mut left: Vec<usize> = groups.iter().map(|g| names.iter().position(|n| n == g)).collect::<Option<_>>()?;
    left.sort_unstable();
    for d in schema.functional_dependencies().iter() {
        if d.source_indices.iter().all(|i| left.contains(i)) {
            left.retain(|i| !d.target_indices.contains(i));
            left.extend(&d.source_indices);
            left.sort_unstable();
            left.dedup();
        }
    }
    left.iter().map(|i| groups.iter().position(|g| *g == names[*i])).collect()
}
