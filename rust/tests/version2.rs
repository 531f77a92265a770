//! Files of version 2: wide tables, keys, filters on scans. Every result is spelled out.
use simmerroof::{Kind, Mode, Pruner, Refusal, Shape, check, prune};

mod deep;
mod hex;
use deep::on_deep_stack;
use hex::bytes;

fn file(parts: &[&str]) -> Vec<u8> {
    bytes(&parts.concat().replace(' ', ""))
}

/// The answer of both forms, which must be the same.
fn narrowed(file: &[u8], request: Option<&[u16]>) -> Result<Vec<u8>, Refusal> {
    let lent = Pruner::new().prune_to_vec(Mode::House, 0, file, request);
    if let Some(request) = request {
        let mut out = vec![0xA5; file.len() + 4096];
        let plain = on_deep_stack(|| prune(Mode::House, 0, file, request, &mut out));
        assert_eq!(plain, lent.as_ref().map(Vec::len).map_err(|r| *r));
        assert_eq!(out[..plain.unwrap_or(0)], lent.clone().unwrap_or_default());
    }
    lent
}

fn checked(file: &[u8]) -> Result<Shape, Refusal> {
    on_deep_stack(|| check(file))
}

fn refused(file: &[u8], kind: Kind, place: usize) {
    let refusal = Refusal { kind, place };
    assert_eq!(checked(file), Err(refusal));
    assert_eq!(narrowed(file, Some(&[])), Err(refusal));
    assert_eq!(narrowed(file, None), Err(refusal));
}

/// Mark, version 2, one table of the columns 1, 2 and 3.
const TABLE: &str = "43504c 0200 01 0300 0100 0200 0300";
const NO_KEYS: &str = "00";

#[test]
fn a_filter_stays_and_its_column_is_not_read_for_it() {
    // rows whose column 2 is 5; column 1 is asked for
    let filter = "01 08 00 0100 0200 01 0500000000000000";
    let plan = file(&[TABLE, NO_KEYS, "0b 00 0100 00", filter]);
    assert_eq!(checked(&plan), Ok(Shape { nodes: 1, fields: 3 }));
    assert_eq!(narrowed(&plan, Some(&[0])), Ok(file(&[TABLE, NO_KEYS, "0b 00 0100 01 0100 0000", filter])));
    // by its name alone, and where the scan does not list it
    let alone = "01 08 00 0000 0200 01 0500000000000000";
    let listed = file(&[TABLE, NO_KEYS, "0b 00 0100 01 0200 0200 0000", alone]);
    assert_eq!(narrowed(&listed, Some(&[1])), Ok(file(&[TABLE, NO_KEYS, "0b 00 0100 01 0100 0000", alone])));
}

#[test]
fn columns_of_filters_are_found_once_in_the_table() {
    let scan = |filter: &str| file(&[TABLE, NO_KEYS, "0b 00 0100 00", filter]);
    refused(&scan("01 00 0100 0900"), Kind::Unknown, 0);
    refused(&scan("01 00 0200 0100"), Kind::Unknown, 0);
    // beneath a limit; two columns of one name, of which the scan reads one
    let twice = "43504c 0200 01 0300 0100 0100 0300 00 04 00000000 03000000 0b 00 0100 01 0100 0000";
    refused(&file(&[twice, "01 00 0100 0100"]), Kind::Ambiguous, 1);
    refused(&file(&[twice, "01 00 0000 0100"]), Kind::Ambiguous, 1);
    refused(&file(&[twice, "01 08 00 0000 0100 00 0000 0900"]), Kind::Unknown, 1);
    assert_eq!(checked(&file(&[twice, "01 00 0100 0300"])), Ok(Shape { nodes: 2, fields: 1 }));
    // 17 filters: after the count's offset nothing is looked at
    refused(&scan("11"), Kind::Many, 20);
}

#[test]
fn keys_are_kept() {
    let keys = "01 00 0200 0200 0000";
    let plan = file(&[TABLE, keys, "01 0100 00 0100 0200 0b 00 0100 00 00"]);
    assert_eq!(narrowed(&plan, None), Ok(file(&[TABLE, keys, "0b 00 0100 01 0100 0100 00"])));
}

#[test]
fn a_key_lets_a_group_go() {
    // columns 1 and 2 are the key of the table; groups 3, 2, 1
    let groups =
        |list: &str, scan: &str| file(&[TABLE, "01 00 0200 0100 0000", "05", list, "0000 0b 00 0100", scan, "00"]);
    let three = "0300 00 0100 0300 00 0100 0200 00 0100 0100";
    let plan = groups(three, "00");
    assert_eq!(narrowed(&plan, Some(&[1])), Ok(groups("0200 00 0100 0200 00 0100 0100", "01 0200 0000 0100")));
    // a requested group stays, and so do all without the whole key among them
    assert_eq!(narrowed(&plan, Some(&[0])), Ok(groups(three, "01 0300 0000 0100 0200")));
    let half = "0200 00 0100 0300 00 0100 0200";
    assert_eq!(narrowed(&groups(half, "00"), Some(&[1])), Ok(groups(half, "01 0200 0100 0200")));
}

#[test]
fn keys_that_are_refused() {
    let with = |keys: &str| file(&[TABLE, keys, "0b 00 0100 00 00"]);
    // the keys' count stands at 14
    refused(&with("11"), Kind::Many, 14);
    refused(&with("01 01"), Kind::Value, 15);
    refused(&with("01 00 0000"), Kind::Value, 16);
    refused(&with("01 00 0102"), Kind::Many, 16);
    refused(&with("01 00 0200 0000 0300"), Kind::Value, 20);
    refused(&with("01 00 0200 0000 0000"), Kind::Value, 20);
    refused(&with("02 00 0100 0000 00 0100 0100"), Kind::Value, 20);
}

/// A table of 512 columns, of which the last two are asked for.
#[test]
fn columns_past_255() {
    let names: Vec<u8> = (1..=512u16).flat_map(u16::to_le_bytes).collect();
    let head = [&bytes("43504c0200010002"), &names[..], &[0]].concat();
    let plan = [&head[..], &bytes("0b0001000000")].concat();
    assert_eq!(checked(&plan), Ok(Shape { nodes: 1, fields: 512 }));
    let want = [&head[..], &file(&["0b 00 0100 01 0200 fe01 ff01 00"])].concat();
    assert_eq!(narrowed(&plan, Some(&[510, 511])), Ok(want));
    refused_request(&plan, &[511, 512], 1);
    // a column too many
    refused(&bytes("43504c0200010102"), Kind::Many, 6);
    // 512 fields are accepted, a row number over them is one too many
    let number = [&head[..], &file(&["06 0100 0000 0102 00 00 00 0b 00 0100 00 00"])].concat();
    refused(&number, Kind::Fields, 0);
}

/// 16 tables of 512 columns, each with a key of all of them, the last first.
#[test]
fn the_largest_catalogue() {
    let names: Vec<u8> = (1..=512u16).flat_map(u16::to_le_bytes).collect();
    let columns: Vec<u8> = (0..512u16).rev().flat_map(u16::to_le_bytes).collect();
    let mut head = bytes("43504c020010");
    (0..16).for_each(|_| head.extend([&[0, 2], &names[..]].concat()));
    head.push(16);
    (0..16).for_each(|t| head.extend([&[15 - t, 0, 2], &columns[..]].concat()));
    let filter = "00 0100 0002";
    let plan = [&head[..], &file(&["0b 0f 0100 00 10", &filter.repeat(16)])].concat();
    let want = [&head[..], &file(&["0b 0f 0100 01 0300 0000 ff00 fe01 10", &filter.repeat(16)])].concat();
    assert_eq!(narrowed(&plan, Some(&[0, 255, 510])), Ok(want));
    let odd: Vec<u16> = (0..512).filter(|i| i % 2 == 1).collect();
    let list: Vec<u8> = odd.iter().flat_map(|i| i.to_le_bytes()).collect();
    let want = [&head[..], &file(&["0b 0f 0100 01 0001"]), &list, &file(&["10", &filter.repeat(16)])].concat();
    assert_eq!(narrowed(&plan, Some(&odd)), Ok(want));
}

/// 255 nodes of 512 parts, over an Empty: as many rows and fields as a file can have.
#[test]
fn the_most_parts() {
    let part = |i: u16, calls: &[u8]| [&[0, 0], &(i + 1).to_le_bytes()[..], &[0], calls].concat();
    let parts = |calls: &[u8]| (0..512).flat_map(|i| part(i, calls)).collect::<Vec<u8>>();
    let empty = file(&["0c 01 0000"]);
    let aggregate = [&bytes("0500000002")[..], &parts(&[])].concat();
    let plan = [&bytes("43504c02000000")[..], &aggregate.repeat(255), &empty].concat();
    assert_eq!(checked(&plan), Ok(Shape { nodes: 256, fields: 512 }));
    // nothing is asked of the aggregate beneath the first, so that it becomes the one-row Empty
    assert_eq!(narrowed(&plan, None), Ok([&bytes("43504c02000000")[..], &aggregate, &empty].concat()));
    // a window has its input's fields too: the second from below has 1,024
    let window = [&bytes("060002")[..], &parts(&[0, 0])].concat();
    refused(&[&bytes("43504c02000000")[..], &window.repeat(255), &empty].concat(), Kind::Fields, 253);
}

fn refused_request(file: &[u8], request: &[u16], place: usize) {
    assert_eq!(narrowed(file, Some(request)), Err(Refusal { kind: Kind::Request, place }));
}

#[test]
fn versions() {
    // a result has its file's version; version 1 keeps its limits and has neither keys nor filters
    let first = file(&["43504c 0100 01 03 0100 0200 0300", "0b 00 0100 00"]);
    let want = file(&["43504c 0100 01 03 0100 0200 0300", "0b 00 0100 01 01 01"]);
    assert_eq!(narrowed(&first, Some(&[1])), Ok(want));
    refused(&[&first[..], &[0]].concat(), Kind::Tail, 18);
    refused(&bytes("43504c01000141"), Kind::Many, 6);
    for mark in ["43504c0000", "43504c0300", "43504c0201"] {
        refused(&bytes(mark), Kind::Mark, 0);
    }
    refused(&bytes("43504c0200"), Kind::Cut, 5);
}
