//! Damaged files: every call gets an answer, refusals change nothing, and the plain and the lent form agree.
use simmerroof::{Kind, Mode, Pruner, Refusal, prune_all};
use std::path::PathBuf;

mod deep;
use deep::on_deep_stack;

const UNTOUCHED: u8 = 0xA5;
const ROOM: usize = 4096;

fn samples() -> Vec<(PathBuf, Vec<u8>)> {
    let dir = concat!(env!("CARGO_MANIFEST_DIR"), "/../samples");
    let files = std::fs::read_dir(dir).unwrap().map(|f| f.unwrap().path());
    let plans = files.filter(|f| f.extension().is_some_and(|e| e == "cpl"));
    let list: Vec<_> = plans.map(|f| (f.clone(), std::fs::read(f).unwrap())).collect();
    assert!(list.len() >= 11);
    list
}

/// The answer of both forms, in both modes, with what every answer must be like.
fn answers(pruner: &mut Pruner, file: &[u8]) -> [Result<usize, Refusal>; 2] {
    [Mode::Crate, Mode::House].map(|mode| {
        let (mut plain, mut lent) = (vec![UNTOUCHED; ROOM], vec![UNTOUCHED; ROOM]);
        let answer = prune_all(mode, 0, file, &mut plain);
        assert_eq!(answer, pruner.prune_all(mode, 0, file, &mut lent));
        assert_eq!(plain, lent);
        let written = answer.unwrap_or(0);
        assert!(plain[written..].iter().all(|b| *b == UNTOUCHED));
        if answer.is_ok() {
            // the result is a plan that is accepted, and the room that it asks for is its length
            assert!(pruner.prune_to_vec(mode, 0, &plain[..written], None).is_ok());
            let short = prune_all(mode, 0, file, &mut lent[..written - 1]);
            assert_eq!(short, Err(Refusal { kind: Kind::Room, place: written }));
        }
        answer
    })
}

#[test]
fn cut_files() {
    on_deep_stack(cut_at_every_byte);
}

fn cut_at_every_byte() {
    let mut pruner = Pruner::new();
    for (name, file) in samples() {
        for n in 0..file.len() {
            for answer in answers(&mut pruner, &file[..n]) {
                let refusal = answer.expect_err("a part of a file");
                let kind = if n < 5 { Kind::Mark } else { Kind::Cut };
                assert_eq!(refusal.kind, kind, "{} cut to {n}", name.display());
                assert!(refusal.place <= n);
            }
        }
    }
}

#[test]
fn files_with_a_tail() {
    on_deep_stack(with_a_tail);
}

fn with_a_tail() {
    let mut pruner = Pruner::new();
    for (_, mut file) in samples() {
        let end = file.len();
        file.extend([0, 1, 2]);
        assert_eq!(answers(&mut pruner, &file), [Err(Refusal { kind: Kind::Tail, place: end }); 2]);
    }
}

#[test]
fn files_with_one_wrong_byte() {
    on_deep_stack(with_one_wrong_byte);
}

fn with_one_wrong_byte() {
    let mut pruner = Pruner::new();
    let mut codes = [0; 18];
    for (_, file) in samples() {
        // of the names of a wide table every sixteenth byte
        for at in (0..file.len()).filter(|at| *at < 64 || at + 96 > file.len() || at % 16 == 0) {
            for wrong in [0, 1, 2, 3, 7, 8, 12, 13, 64, 65, 128, 129, 255] {
                let mut file = file.clone();
                file[at] = wrong;
                for answer in answers(&mut pruner, &file) {
                    codes[answer.err().map_or(0, |r| r.kind.code()) as usize] += 1;
                }
            }
        }
    }
    // results, and all refusals that one byte brings about
    for code in [0, 2, 3, 4, 5, 6, 7, 8] {
        assert!(codes[code] > 0, "{codes:?}");
    }
}

#[test]
fn no_file_and_no_room() {
    on_deep_stack(with_no_room);
}

fn with_no_room() {
    assert_eq!(answers(&mut Pruner::new(), &[]), [Err(Refusal { kind: Kind::Mark, place: 0 }); 2]);
    let (_, file) = samples().swap_remove(0);
    let answer = prune_all(Mode::House, 0, &file, &mut []).unwrap_err();
    assert_eq!(answer.kind, Kind::Room);
    assert!(answer.to_string().starts_with("the output is too short"));
}
