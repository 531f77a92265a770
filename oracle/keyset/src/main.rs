//! keyset N SEED PROGRAM...: N random predicates, each with keys, through the unchanged texts; what they answer goes as vectors through the program
//! `key_vectors` (PROGRAM and its words), which runs both entries and compares every byte. Exit status 1 if one differs.
extern crate self as datafusion_expr;
extern crate self as indexmap;

mod bytes;
mod cases;
mod standin;
mod texts;
include!(concat!(env!("OUT_DIR"), "/text.rs"));
pub use standin::{Equivalent, Expr, IndexSet};

use generator::{Random, hex};
use std::io::Write;
use std::process::{Command, Stdio, exit};

/// The most tags of an argument, and the most bytes of a part that the program takes, less one.
const TAGS: usize = 4096;
const PART: usize = 524287;

fn spelled(bytes: &[u8]) -> String {
    if bytes.is_empty() { "-".into() } else { hex(bytes) }
}

/// The answer in a buffer of `room` bytes, as a vector has it.
fn answer(result: Option<Vec<u8>>, room: usize) -> String {
    match result {
        None => "18 0 0 -".into(),
        Some(bytes) if bytes.len() > room => format!("13 0 {} -", bytes.len()),
        Some(bytes) => format!("0 {} 0 {}", bytes.len(), hex(&bytes)),
    }
}

/// Room for all, just enough, or a byte too few.
fn room(r: &mut Random, result: &Option<Vec<u8>>) -> usize {
    let needed = result.as_ref().map_or(0, Vec::len);
    match r.below(10) {
        0 => needed,
        1 => needed.saturating_sub(1),
        _ => 65536,
    }
}

fn line(r: &mut Random, arguments: &str, result: Option<Vec<u8>>) -> String {
    let room = room(r, &result);
    format!("{room} {arguments} => {}\n", answer(result, room))
}

/// The vectors of one predicate, one for each entry.
fn vectors(r: &mut Random) -> [String; 2] {
    loop {
        let predicate = cases::predicate(r);
        let keys = texts::keys(&predicate);
        let given = cases::given(r, &predicate, keys.as_ref());
        let tags: usize = given.iter().map(|(a, b)| bytes::tags(a) + bytes::tags(b)).sum();
        if bytes::tags(&predicate) > TAGS || tags > TAGS {
            continue;
        }
        let p = spelled(&bytes::predicate(&predicate));
        let first = line(r, &p, keys.map(|k| bytes::pairs(&k)));
        let left = texts::without(&predicate, &given).map(|e| bytes::left(&e));
        return [first, line(r, &format!("{p} {}", spelled(&bytes::pairs(&given))), left)];
    }
}

/// What the program says of a part: how many lines of each code are the same, and how many differ.
fn run(program: &[String], part: &str, codes: &mut [usize; 19]) -> usize {
    let mut child = Command::new(&program[0])
        .args(&program[1..])
        .stdin(Stdio::piped())
        .stdout(Stdio::piped())
        .spawn()
        .unwrap_or_else(|e| panic!("{}: {e}", program[0]));
    child.stdin.take().unwrap().write_all(part.as_bytes()).unwrap();
    let said = child.wait_with_output().unwrap();
    assert!(said.status.success(), "{}: {}", program[0], said.status);
    let (lines, mut differ) = (part.lines().collect::<Vec<_>>(), lines_of(part));
    for word in String::from_utf8(said.stdout).unwrap().lines() {
        let w: Vec<&str> = word.split(' ').collect();
        match w[0] {
            "code" => codes[w[1].trim_end_matches(':').parse::<usize>().unwrap()] += w[2].parse::<usize>().unwrap(),
            "differ" => differ = w[1].parse().unwrap(),
            "line" => println!("{word}\n  of {}", lines[w[1].parse::<usize>().unwrap() - 1]),
            _ => assert!(word == format!("vectors {}", lines.len()), "{word}"),
        }
    }
    differ
}

fn lines_of(part: &str) -> usize {
    part.lines().count()
}

fn main() {
    let words: Vec<String> = std::env::args().skip(1).collect();
    let number = |i: usize| words.get(i).and_then(|w| w.parse().ok()).expect("usage: keyset N SEED PROGRAM...");
    let (n, seed) = (number(0), number(1));
    let (mut r, mut part, mut codes, mut differ) = (Random::new(seed), String::new(), [0; 19], 0);
    for _ in 0..n {
        for line in vectors(&mut r) {
            if part.len() + line.len() > PART {
                differ += run(&words[2..], &part, &mut codes);
                part.clear();
            }
            part += &line;
        }
    }
    differ += run(&words[2..], &part, &mut codes);
    println!("{n} predicates, seed {seed}, both entries: {} equal, {differ} differ", codes.iter().sum::<usize>());
    println!("  by code 0, 13, 18: {}, {}, {}", codes[0], codes[13], codes[18]);
    exit((differ != 0) as i32);
}
