//! The tables.
use crate::forms::NAMES;
use crate::sets::Set;

fn head(title: &str) {
    println!("\n{title}");
    print!("{:26}", "");
    NAMES.iter().for_each(|n| print!("{n:>23}"));
    println!("{:>12}{:>12}{:>12}", "lent/pass", "lent/codec", "plain/codec");
}

fn row(set: &Set, cells: [Option<f64>; 4]) {
    print!("{:26}", set.name);
    cells.iter().for_each(|c| print!("{:>23}", c.map_or("-".into(), |v| format!("{v:.0}"))));
    for (a, b) in [(2, 0), (2, 1), (3, 1)] {
        let ratio = cells[a].zip(cells[b]).map(|(x, y)| format!("{:.2}", x / y));
        print!("{:>12}", ratio.unwrap_or("-".into()));
    }
    println!();
}

pub fn times(sets: &[Set], rows: &[[Option<f64>; 4]]) {
    head(&format!("Nanoseconds a plan, best of alternating runs; {}", std::env::consts::ARCH));
    sets.iter().zip(rows).for_each(|(s, r)| row(s, *r));
}

pub fn instructions(sets: &[Set], rows: &[[Option<f64>; 4]]) {
    let title =
        "Instructions a plan, by callgrind, from the difference of two run lengths (- where valgrind is not there)";
    head(&format!("{title}; {}", std::env::consts::ARCH));
    sets.iter().zip(rows).for_each(|(s, r)| row(s, *r));
    println!(
        "\nCrate mode unless house mode is named, which the Rust does not have; mask 0, all fields; all built for release. No file is
opened: plans and results are in memory. `w columns`: 20 nodes over two tables of w columns, of which few are asked for.
`v2`: files of version 2; the others are of version 1. `filters`: each scan has two, on columns that nothing else reads.
Rust, pass alone: from a plan in memory to a plan in memory; reading, writing and dropping the result do not count.
Rust, with file codec: the oracle's own reading and writing count, and the dropping of both plans.
library, lent form: reading and writing count; the working arrays are lent and nobody clears them between calls.
library, plain form: reading and writing count, and so does making and clearing the working arrays in each call.
The output buffer is made once for all calls and nobody clears it."
    );
}
