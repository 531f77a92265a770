//! Plans as text.
use simmerroof::{Kind, Mode, Pruner, Refusal, check, list, list_into};

mod hex;
use hex::bytes;

fn sample(name: &str) -> Vec<u8> {
    std::fs::read(format!("{}/../samples/{name}.cpl", env!("CARGO_MANIFEST_DIR"))).unwrap()
}

#[test]
fn the_samples() {
    let listed = |name: &str, lines: &[&str]| assert_eq!(list(&sample(name)), Ok(lines.concat()), "{name}");
    listed("s1", &["projection [q1.c1]\n", "  scan 0 as q1\n"]);
    listed("s2", &["projection [q1.c1 as c7]\n", "  filter (q1.c2 = 5)\n", "    scan 0 as q1\n"]);
    listed("s3", &["limit 0 3\n", "  aggregate [q1.c1] [sum(q1.c2) as c7, max(q1.c3) as c8]\n", "    scan 0 as q1\n"]);
    listed("s5", &["window [number() by [q1.c1] order [q1.c2] as c7]\n", "  scan 0 as q1\n"]);
    listed("s6", &["scan 0 as q1 [2, 0]\n"]);
    listed(
        "version2",
        &["projection [q1.c1, q1.c356]\n", "  filter (q1.c2 < 20)\n", "    scan 0 as q1 where [(q1.c4 = 2)]\n"],
    );
}

#[test]
fn expressions_in_brackets() {
    // no tables; a filter over a one-row Empty of c1
    let over = |e: &str| list(&bytes(&format!("43504c01000002{e}0c010100000100"))).unwrap();
    assert_eq!(over("030000000100"), "filter (not c1)\n  empty one-row [c1]\n");
    assert_eq!(over("0402"), "filter (is-missing missing)\n  empty one-row [c1]\n");
    assert_eq!(over("0102ffffffffffffff"), "filter -254\n  empty one-row [c1]\n");
    assert_eq!(over("010000000000000080"), "filter -9223372036854775808\n  empty one-row [c1]\n");
}

/// A refusal is the check's.
#[test]
fn a_cut_file() {
    let file = sample("lesson-fold");
    for cut in 0..file.len() {
        assert_eq!(list(&file[..cut]).map(|_| ()), check(&file[..cut]).map(|_| ()), "{cut}");
    }
}

#[test]
fn a_short_output_stays_as_it_was() {
    let file = sample("s2");
    let text = list(&file).unwrap();
    for room in 0..text.len() {
        let mut out = vec![7; room];
        assert_eq!(list_into(&file, &mut out), Err(Refusal { kind: Kind::Room, place: text.len() }));
        assert!(out.iter().all(|&b| b == 7));
    }
    let mut out = vec![7; text.len() + 3];
    assert_eq!(list_into(&file, &mut out), Ok(text.len()));
    assert_eq!(out[..text.len()], *text.as_bytes());
    assert_eq!(out[text.len()..], [7; 3]);
}

#[test]
fn what_pruning_makes() {
    let narrowed = Pruner::new().prune_to_vec(Mode::House, 0, &sample("s1"), None).unwrap();
    assert_eq!(list(&narrowed).as_deref(), Ok("scan 0 as q1 [0]\n"));
}
