//! Names alone: a column without a qualifier finds the one field of that name.
use simmerroof::{Kind, Mode, Pruner, Refusal, Shape, check};

mod hex;
use hex::bytes;

/// A table of the columns 1, 2 and 3, and two scans of it.
const HEAD: &str = "43504c0100 01 03 0100 0200 0300";
const ONE: &str = "0b 00 0100 00";
const TWO: &str = "0b 00 0200 00";

fn file(parts: &[&str]) -> Vec<u8> {
    bytes(&format!("{HEAD}{}", parts.concat()).replace(' ', ""))
}

#[test]
fn a_name_alone_is_found() {
    let plan = file(&["01 01 00 0000 0100", ONE]);
    assert_eq!(check(&plan), Ok(Shape { nodes: 2, fields: 1 }));
    // the item keeps its pair, so the projection stays over a scan of one column
    let narrowed = file(&["01 01 00 0000 0100", "0b 00 0100 01 01 00"]);
    assert_eq!(Pruner::new().prune_to_vec(Mode::House, 0, &plan, None), Ok(narrowed));
}

#[test]
fn where_two_fields_fit_it_is_refused() {
    let refused = |plan: &[u8], kind, place| assert_eq!(check(plan), Err(Refusal { kind, place }));
    // a filter over a join of both scans, by the name 1
    let filter = file(&["02 00 0000 0100", "0a 00 00 00", ONE, TWO]);
    refused(&filter, Kind::Ambiguous, 0);
    let answer = Pruner::new().prune_to_vec(Mode::House, 0, &filter, None);
    assert_eq!(answer, Err(Refusal { kind: Kind::Ambiguous, place: 0 }));
    // the same with its qualifier
    assert_eq!(check(&file(&["02 00 0200 0100", "0a 00 00 00", ONE, TWO])), Ok(Shape { nodes: 4, fields: 6 }));
    // in the join's condition, beneath a limit
    let limit = "04 00000000 03000000";
    refused(&file(&[limit, "0a 00 00 01 00 0000 0100", ONE, TWO]), Kind::Ambiguous, 1);
    // a name that no field has comes first
    let both = "0a 00 00 01 08 00 0000 0100 00 0000 0900";
    refused(&file(&[both, ONE, TWO]), Kind::Unknown, 0);
}

/// A join's halves are looked up each on their own side; but each side is asked for what any reference of the join finds there.
#[test]
fn halves_of_a_join() {
    let plan = file(&["0a 00 01 00 0000 0100 00 0000 0200 00", ONE, TWO]);
    let narrowed = file(&["0a 00 01 00 0000 0100 00 0000 0200 00", "0b 00 0100 01 02 00 01", "0b 00 0200 01 02 00 01"]);
    assert_eq!(Pruner::new().prune_to_vec(Mode::House, 0, &plan, Some(&[0])), Ok(narrowed));
}

#[test]
fn every_kind_has_its_code_and_words() {
    let kinds: Vec<Kind> = (0..=255).filter_map(Kind::from_code).collect();
    assert_eq!(kinds.len(), 15);
    for kind in kinds {
        assert_eq!(Kind::from_code(kind.code() as u64), Some(kind));
        assert!(!Refusal { kind, place: 0 }.to_string().is_empty());
    }
    assert_eq!(Refusal { kind: Kind::Ambiguous, place: 2 }.to_string(), "ambiguous column at node 2");
}
