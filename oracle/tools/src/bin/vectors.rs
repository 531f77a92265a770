//! vectors FILE...: runs vector lines through model/ and says how many differ. A line `mode mask out_len request file => code
//! length place out` asks for an answer, a line `file => code place nodes fields` for a check alone. Exit status 1 if one differs.
use generator::{hex, parse};
use model::{Fault, accept, answer, nodes_in, read};

fn bytes(text: &str) -> Vec<u8> {
    let at = |i| u8::from_str_radix(&text[i..i + 2], 16).expect("hex");
    if text == "-" { vec![] } else { (0..text.len()).step_by(2).map(at).collect() }
}

fn check(file: &[u8]) -> Result<(usize, usize), Fault> {
    let file = read(file)?;
    Ok((nodes_in(&file.plan), accept(&file.plan, &file.catalogue)?.len()))
}

fn got(case: &str) -> String {
    if !case.contains(' ') {
        return match check(&bytes(case)) {
            Ok((nodes, fields)) => format!("0 0 {nodes} {fields}"),
            Err(Fault { code, place }) => format!("{code} {place} 0 0"),
        };
    }
    let (mode, case, room) = parse(case).expect("a case");
    match answer(mode, case.mask, &case.file, case.request.as_deref(), room) {
        Ok(out) => format!("0 {} 0 {}", out.len(), hex(&out)),
        Err(Fault { code, place }) => format!("{code} 0 {place} -"),
    }
}

fn run() -> usize {
    let (mut lines, mut differ) = (0, 0);
    for name in std::env::args().skip(1) {
        for (at, line) in std::fs::read_to_string(&name).expect("the file").lines().enumerate() {
            let (case, want) = line.split_once(" => ").expect("a case and its answer");
            let got = got(case);
            lines += 1;
            if got != want {
                differ += 1;
                println!("{name} line {}: model {got:.80}, vector {want:.80}", at + 1);
            }
        }
    }
    println!("{}: {lines} lines, {differ} differ", if differ == 0 { "passed" } else { "failed" });
    differ
}

fn main() {
    std::process::exit((tools::on_deep_stack(run) > 0) as i32);
}
