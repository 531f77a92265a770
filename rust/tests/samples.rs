//! Document 01's samples S1 to S8, from samples/.
use simmerroof::{Kind, Mode, Pruner, Refusal, prune, prune_all};

mod hex;
use hex::bytes;

const HEAD: &str = "43504c0100 01 03 0100 0200 0300";

fn sample(name: &str) -> Vec<u8> {
    std::fs::read(format!("{}/../samples/{name}.cpl", env!("CARGO_MANIFEST_DIR"))).unwrap()
}
fn text(parts: &str) -> Vec<u8> {
    bytes(&format!("{HEAD}{parts}").replace(' ', ""))
}

/// sample, mode, mask, request, what stands behind the catalogue of the result
const SAMPLES: [(&str, Mode, u16, Option<&[u16]>, &str); 12] = [
    ("s1", Mode::House, 0, None, "0b 00 0100 01 01 00"),
    (
        "s2",
        Mode::House,
        0,
        None,
        "01 01 0c 0000 0700 00 0100 0100 02 08 00 0100 0200 01 0500000000000000 0b 00 0100 01 02 00 01",
    ),
    (
        "s3",
        Mode::House,
        0,
        Some(&[2]),
        "04 00000000 03000000 05 01 00 0100 0100 01 0000 0800 04 00 0100 0300 0b 00 0100 01 02 00 02",
    ),
    ("s4", Mode::House, 0, Some(&[]), "0c 01 00"),
    ("s5", Mode::House, 0, Some(&[0]), "0b 00 0100 01 01 00"),
    ("s5", Mode::House, 0, Some(&[3]), "06 01 0000 0700 00 01 00 0100 0100 01 00 00 0100 0200 0b 00 0100 01 02 00 01"),
    ("s6", Mode::House, 0, Some(&[0]), "0b 00 0100 01 01 02"),
    ("s7", Mode::Crate, 0, None, "01 01 0c 0000 0800 05 00 0100 0100 01 0100000000000000 0b 00 0100 01 01 00"),
    (
        "s7",
        Mode::House,
        0,
        None,
        "01 01 0c 0000 0800 05 05 00 0100 0100 01 0100000000000000 01 0100000000000000 0b 00 0100 01 01 00",
    ),
    (
        "s8",
        Mode::House,
        0,
        None,
        "01 01 0c 0000 0900 05 00 0000 0800 00 0000 0800 01 01 0c 0000 0800 05 00 0100 0100 01 0100000000000000 0b 00 0100 01 01 00",
    ),
    (
        "s8",
        Mode::House,
        32,
        None,
        "01 01 0c 0000 0900 05 05 00 0100 0100 01 0100000000000000 05 00 0100 0100 01 0100000000000000 0b 00 0100 01 01 00",
    ),
    (
        "s8",
        Mode::Crate,
        32,
        None,
        "01 01 0c 0000 0900 05 05 00 0100 0100 01 0100000000000000 05 00 0100 0100 01 0100000000000000 0b 00 0100 01 01 00",
    ),
];

#[test]
fn samples_of_document_01() {
    let mut pruner = Pruner::new();
    for (name, mode, mask, request, want) in SAMPLES {
        let got = pruner.prune_to_vec(mode, mask, &sample(name), request);
        assert_eq!(got, Ok(text(want)), "{name} {mode:?} {mask} {request:?}");
    }
}

#[test]
fn run_only_samples() {
    let refused = |kind, place| Err(Refusal { kind, place });
    let mut out = [0; 64];
    assert_eq!(prune_all(Mode::House, 0, &bytes("43504c0100"), &mut out), refused(Kind::Cut, 5));
    assert_eq!(prune(Mode::House, 0, &text("0b 00 0100 00"), &[1, 1], &mut out), refused(Kind::Request, 1));
    // an Empty of 128 fields is accepted; a row-numbering window over it has 129
    let empty = |n: u16| (1..=n).flat_map(|i| [0, 0, i as u8, 1]).collect::<Vec<u8>>();
    let wide = [&bytes("43504c0100000c0080")[..], &empty(128)].concat();
    assert_eq!(Pruner::new().prune_to_vec(Mode::House, 0, &wide, None), Ok(wide.clone()));
    let window = [&bytes("43504c0100000601000009000000000c0080")[..], &empty(128)].concat();
    assert_eq!(prune_all(Mode::House, 0, &window, &mut out), refused(Kind::Fields, 0));
    assert_eq!(out, [0; 64]);
}

#[test]
fn settings() {
    let mut out = [0; 64];
    let answer = prune_all(Mode::House, 4096, &sample("s1"), &mut out);
    assert_eq!(answer, Err(Refusal { kind: Kind::Setting, place: 0 }));
    assert_eq!(answer.unwrap_err().to_string(), "setting not allowed");
}
