//! Keys out of a predicate, and what is left of it.
use simmerroof::{Kind, Refusal, join_keys, without_keys};

mod hex;
use hex::bytes;

fn keys_of(predicate: &[u8]) -> Result<Vec<u8>, Refusal> {
    let mut out = vec![0; predicate.len()];
    join_keys(predicate, &mut out).map(|n| out[..n].to_vec())
}

fn left_of(predicate: &[u8], keys: &[u8]) -> Result<Vec<u8>, Refusal> {
    let mut out = vec![0; predicate.len() + 1];
    without_keys(predicate, keys, &mut out).map(|n| out[..n].to_vec())
}

/// columns (1, 1) and (2, 1), and (1, 2) = 5
const A: &str = "0001000100";
const B: &str = "0002000100";
const C: &str = "0800010002000105000000\
                 00000000";

#[test]
fn an_equality_under_and() {
    let predicate = bytes(&format!("0a08{A}{B}{C}"));
    let keys = keys_of(&predicate).unwrap();
    // a = b, then (1, 2) = 5, as the Rust takes every equality of two sides
    assert_eq!(keys[0], 2);
    assert_eq!(keys[1..11], bytes(&format!("{A}{B}")));
    assert_eq!(left_of(&predicate, &keys), Ok(vec![0]));
    let mut first = bytes(&format!("01{A}{B}"));
    assert_eq!(left_of(&predicate, &first), Ok(bytes(&format!("01{C}"))));
    // the mirror is the same key
    first = bytes(&format!("01{B}{A}"));
    assert_eq!(left_of(&predicate, &first), Ok(bytes(&format!("01{C}"))));
}

#[test]
fn an_or_keeps_what_both_sides_have() {
    let predicate = bytes(&format!("0b08{A}{B}0a{C}08{B}{A}"));
    assert_eq!(keys_of(&predicate), Ok(bytes(&format!("01{A}{B}"))));
}

#[test]
fn refusals() {
    let refused = |text: &str, kind, place| assert_eq!(keys_of(&bytes(text)), Err(Refusal { kind, place }), "{text}");
    refused("", Kind::Cut, 0);
    refused("0c", Kind::Value, 0);
    refused("0202", Kind::Tail, 1);
    assert_eq!(left_of(&bytes("02"), &[]), Err(Refusal { kind: Kind::Cut, place: 0 }));
    // 65 different equalities
    let mut many = vec![10; 64];
    for i in 0..65 {
        many.extend([8, 0, 1, 0, 1, 0, 0, 2, 0, i + 1, 0]);
    }
    assert_eq!(keys_of(&many), Err(Refusal { kind: Kind::Pairs, place: 0 }));
    let mut short = [7; 3];
    assert_eq!(join_keys(&bytes(&format!("08{A}{B}")), &mut short), Err(Refusal { kind: Kind::Room, place: 11 }));
    assert_eq!(short, [7; 3]);
}
