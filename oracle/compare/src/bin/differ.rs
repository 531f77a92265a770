//! differ N SEED [wide] [keys] [slip]: N random accepted plans through the unchanged texts and through the library, crate mode, results compared byte by
//! byte. Exit status 1 if a difference is not explained.
use compare::Library;
use simmerroof::Mode;
use tools::{Words, differ, ended, numbers};

fn main() {
    let choices = ["wide", "keys", "slip"];
    let (n, seed, [wide, keys, slip]) = numbers("oracle/differ N SEED [wide] [keys] [slip]", choices);
    std::panic::set_hook(Box::new(|p| eprintln!("{p}")));
    ended(move || {
        let mut library = Library::new(slip);
        differ(Words { n, seed, wide, keys }, "library", |case| library.answer(Mode::Crate, case))
    });
}
