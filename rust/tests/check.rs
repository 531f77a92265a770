//! Reading and checking alone.
use simmerroof::{Kind, Mode, Pruner, Refusal, Shape, check};

mod hex;
use hex::bytes;

fn sample(name: &str) -> Vec<u8> {
    std::fs::read(format!("{}/../samples/{name}.cpl", env!("CARGO_MANIFEST_DIR"))).unwrap()
}

#[test]
fn nodes_and_fields_of_the_samples() {
    for (name, nodes, fields) in [
        ("s1", 2, 1),
        ("s2", 3, 1),
        ("s3", 3, 3),
        ("s5", 2, 4),
        ("s6", 1, 2),
        ("lesson-names", 4, 2),
        ("lesson-fold", 9, 2),
    ] {
        assert_eq!(check(&sample(name)), Ok(Shape { nodes, fields }), "{name}");
    }
}

#[test]
fn refusals_with_their_places() {
    let refused = |text: &str, kind, place| assert_eq!(check(&bytes(text)), Err(Refusal { kind, place }), "{text}");
    refused("", Kind::Mark, 0);
    refused("43504c0100", Kind::Cut, 5);
    refused("43504c010000630000", Kind::Value, 6);
    refused("43504c0100000c000000", Kind::Tail, 9);
    // a filter of a column that an Empty without fields does not have
    refused("43504c0100000200010001000c0000", Kind::Unknown, 0);
    // a union of widths 1 and 0
    refused("43504c010000080c0001010001000c0000", Kind::Width, 0);
}

/// Where the check refuses, pruning gives the same refusal; where it accepts, pruning for all fields passes the reading codes.
#[test]
fn pruning_passes_the_refusal_on() {
    let (mut pruner, file) = (Pruner::new(), sample("lesson-fold"));
    for cut in 0..file.len() {
        let refusal = check(&file[..cut]).expect_err("a cut file");
        assert_eq!(pruner.prune_to_vec(Mode::House, 0, &file[..cut], None), Err(refusal));
    }
    assert!(check(&file).is_ok() && pruner.prune_to_vec(Mode::House, 0, &file, None).is_ok());
}
