//! foretell N SEED [wide] [keys] [slip]: as differ, with the model in the library's place, so that no library is needed. Exit status 1 if a difference is
//! not explained.
use tools::{Words, differ, ended, numbers};

fn main() {
    let choices = ["wide", "keys", "slip"];
    let (n, seed, [wide, keys, slip]) = numbers("oracle/foretell N SEED [wide] [keys] [slip]", choices);
    std::panic::set_hook(Box::new(|p| eprintln!("{p}")));
    ended(move || {
        differ(Words { n, seed, wide, keys }, "model", |case| {
            let mut answer = model::answer(0, case.mask, &case.file, case.request.as_deref(), usize::MAX);
            if let Ok(bytes) = &mut answer
                && slip
                && bytes.len() > 80
            {
                bytes[80] ^= 1;
            }
            answer
        })
    });
}
