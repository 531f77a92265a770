//! oracle [FILE]: cases, one a line, from FILE or standard input; the texts' answers to standard output.
//! A case is `mode mask out_len request file`, as in the vectors (request: `*` for all fields, `-` for none, else a comma
//! list; file in hex); what a line has from ` => ` on is not read. The mode must be 0: house mode is not in the texts.
//! An answer is the case, ` => 0 length 0 result`; the texts have no codes, so a refusal is ` => refused: words`.
use generator::{hex, line, parse};
use std::io::{Read, Write};

fn main() {
    let mut text = String::new();
    match std::env::args().nth(1) {
        Some(file) => text = std::fs::read_to_string(file).expect("the file"),
        None => {
            std::io::stdin().read_to_string(&mut text).expect("standard input");
        }
    }
    std::panic::set_hook(Box::new(|_| {}));
    tools::on_deep_stack(move || {
        let mut out = std::io::stdout().lock();
        for text in text.lines() {
            let Some((0, case, room)) = parse(text) else {
                writeln!(out, "{text} => refused: no case of crate mode").unwrap();
                continue;
            };
            let answer = match tools::texts(&case) {
                Ok(b) => format!("0 {} 0 {}", b.len(), hex(&b)),
                Err(words) => format!("refused: {words}"),
            };
            writeln!(out, "{} => {answer}", line(&case, 0, room)).unwrap();
        }
    });
}
