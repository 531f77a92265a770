//! What the commands have in common: their words, and how they end.
use std::panic::{UnwindSafe, catch_unwind};
use std::process::exit;

/// N, SEED, and which of the choices follow; anything else is refused with the usage.
pub fn numbers<const K: usize>(usage: &str, choices: [&str; K]) -> (usize, u64, [bool; K]) {
    let words: Vec<String> = std::env::args().skip(1).collect();
    let number = |i: usize| words.get(i).and_then(|w| w.parse::<u64>().ok());
    let known = words.iter().skip(2).all(|w| choices.contains(&w.as_str()));
    match (number(0), number(1)) {
        (Some(n), Some(seed)) if known => (n as usize, seed, choices.map(|c| words.iter().any(|w| w == c))),
        _ => {
            eprintln!("usage: {usage}");
            exit(2)
        }
    }
}

/// Runs the work and ends the process: status 0 if it says so, else 1. Work that stops early has failed.
pub fn ended(work: impl FnOnce() -> bool + Send + UnwindSafe + 'static) {
    let passed = crate::on_deep_stack(|| catch_unwind(work)).unwrap_or_else(|_| {
        println!("failed: stopped early, as standard error says");
        false
    });
    exit(!passed as i32);
}
