//! What a comparison with the texts shows.
use generator::Case;
use model::{Answer, Ways};

#[derive(Debug, Clone, Copy, PartialEq, Eq, PartialOrd, Ord)]
pub enum Verdict {
    Equal,
    /// document 01's limits, which the texts do not have
    Limit,
    /// the fewest of the Rust's ways (docs/DIFFERENCES.md) that give what all of them give
    Known(Ways),
    Unexplained,
}

/// The model, on the plan alone, says what the texts give and what we give, and by that in which class the case is. An answer that is another one, of
/// either side, is not explained.
pub fn verdict(case: &Case, texts: &Result<Vec<u8>, String>, ours: &Answer) -> Verdict {
    let request = case.request.as_deref();
    let with = |ways| model::answer_with(ways, case.mask, &case.file, request);
    let (here, there) = (model::answer(0, case.mask, &case.file, request, usize::MAX), with(Ways::ALL));
    if *ours != here || texts.as_ref().ok() != there.as_ref().ok() || there.is_err() {
        return Verdict::Unexplained;
    }
    match here {
        _ if here == there => Verdict::Equal,
        Err(fault) if fault.code == 12 => Verdict::Limit,
        Err(_) => Verdict::Unexplained,
        Ok(_) => Verdict::Known(Ways::sets().into_iter().find(|w| with(*w) == there).expect("all of them")),
    }
}
