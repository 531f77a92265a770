//! The library's answers against the texts' (oracle/answers.txt: what the unchanged Rust gives, crate mode), through the
//! plain and the lent form.
use simmerroof::{Mode, Pruner, Refusal, prune, prune_all};

mod deep;
mod hex;
use deep::on_deep_stack;
use hex::bytes;

const UNTOUCHED: u8 = 0xA5;

fn line(text: &str, pruner: &mut Pruner) {
    let (case, answer) = text.split_once(" => ").expect("a case and an answer");
    let case: Vec<&str> = case.split(' ').collect();
    let answer: Vec<&str> = answer.split(' ').collect();
    assert_eq!(case[0], "0", "crate mode");
    let (mask, room): (u16, usize) = (case[1].parse().unwrap(), case[2].parse().unwrap());
    let (file, result) = (bytes(case[4]), bytes(answer[3]));
    let call = |out: &mut [u8], pruner: Option<&mut Pruner>| -> Result<usize, Refusal> {
        let request: Option<Vec<u16>> = match case[3] {
            "*" => None,
            "-" => Some(vec![]),
            list => Some(list.split(',').map(|i| i.parse().unwrap()).collect()),
        };
        match (request, pruner) {
            (None, None) => prune_all(Mode::Crate, mask, &file, out),
            (Some(r), None) => prune(Mode::Crate, mask, &file, &r, out),
            (None, Some(p)) => p.prune_all(Mode::Crate, mask, &file, out),
            (Some(r), Some(p)) => p.prune(Mode::Crate, mask, &file, &r, out),
        }
    };
    for lent in [false, true] {
        let mut out = vec![UNTOUCHED; room];
        let written = call(&mut out, lent.then_some(&mut *pruner));
        assert_eq!(written, Ok(result.len()), "{text}");
        assert_eq!(&out[..result.len()], result, "{text}");
        assert!(out[result.len()..].iter().all(|b| *b == UNTOUCHED), "{text}");
    }
}

#[test]
fn the_texts_answers() {
    let list = std::fs::read_to_string(concat!(env!("CARGO_MANIFEST_DIR"), "/../oracle/answers.txt")).unwrap();
    let mut pruner = Pruner::new();
    on_deep_stack(|| list.lines().for_each(|text| line(text, &mut pruner)));
    assert!(list.lines().count() >= 342);
}
