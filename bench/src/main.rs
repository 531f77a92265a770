//! bench DIR: times the Rust and the library on the same plans, prints a table, writes DIR/plot.svg.
//! bench count FORM MODE CALLS FILE...: that many counted calls of a form on each file, for callgrind.
mod forms;
mod plot;
mod sets;
mod table;

use forms::{FORMS, Form, Which};
use sets::Set;
use simmerroof::Mode;
use std::process::Command;

/// Runs of each form; the forms take turns, and the best counts.
const RUNS: usize = 15;

/// Calls of the two runs that are counted: what they differ by is so many calls, without start, end and first times.
const CALLS: [usize; 2] = [5, 25];

fn time(set: &Set) -> [Option<f64>; 4] {
    let mut best = [None; 4];
    let mut forms = FORMS.map(|form| Form::new(form, set));
    for _ in 0..RUNS {
        for (form, best) in forms.iter_mut().zip(&mut best).filter(|(form, _)| form.applies()) {
            let now = form.nanoseconds();
            *best = Some(best.map_or(now, |b: f64| b.min(now)));
        }
    }
    best
}

/// Instructions of a run, by callgrind; `None` where there is none.
fn collected(set: &Set, form: Which, calls: usize) -> Option<f64> {
    let out = Command::new("valgrind")
        .args(["--tool=callgrind", "--callgrind-out-file=/dev/null", "--"])
        .arg(std::env::current_exe().ok()?)
        .args(["count", &(form as u8).to_string(), &(set.mode as u8).to_string(), &calls.to_string()])
        .args(&set.paths)
        .output()
        .ok()?;
    let text = String::from_utf8_lossy(&out.stderr);
    let count = text.lines().find_map(|l| l.split_once("Collected : ").map(|p| p.1.trim().to_string()))?;
    count.parse::<f64>().ok()
}

/// Instructions of one call, from the difference of two runs.
fn one_call(set: &Set, form: Which) -> Option<f64> {
    let [few, many] = CALLS.map(|calls| collected(set, form, calls));
    Some((many? - few?) / ((CALLS[1] - CALLS[0]) * set.files.len()) as f64)
}

fn instructions(set: &Set, form: Which) -> Option<f64> {
    if !Form::new(form, set).applies() {
        return None;
    }
    match form {
        Which::Pass => Some(one_call(set, form)? - one_call(set, Which::Read)?),
        _ => one_call(set, form),
    }
}

fn main() {
    let words: Vec<String> = std::env::args().skip(1).collect();
    tools::on_deep_stack(move || match words[0].as_str() {
        "count" => {
            let [form, mode, calls] = [1, 2, 3].map(|i| words[i].parse::<usize>().expect("a number"));
            let mode = if mode == Mode::House as usize { Mode::House } else { Mode::Crate };
            let form = [Which::Pass, Which::Rust, Which::Lent, Which::Plain, Which::Read][form];
            Form::new(form, &Set::of_paths(mode, &words[4..])).counted(calls);
        }
        dir => {
            let sets = sets::all(dir);
            sets.iter().for_each(|s| println!("{}", s.compared()));
            let rows: Vec<[Option<f64>; 4]> = sets.iter().map(time).collect();
            table::times(&sets, &rows);
            let counts = sets.iter().map(|s| FORMS.map(|form| instructions(s, form)));
            table::instructions(&sets, &counts.collect::<Vec<_>>());
            let path = format!("{dir}/plot.svg");
            std::fs::write(&path, plot::svg(&sets, &rows)).expect("the plot is written");
            println!("plot: {path}");
        }
    });
}
