//! The texts' answer to a case, and what the commands that compare have in common.
mod command;
mod differ;
mod shrink;
mod verdict;

pub use command::{ended, numbers};
pub use differ::{Words, differ};
pub use verdict::{Verdict, verdict};

use generator::Case;
use std::panic::catch_unwind;

/// The result of the published pass in crate mode, or its words.
pub fn texts(case: &Case) -> Result<Vec<u8>, String> {
    rig::set_mask(case.mask);
    let request: Option<Vec<usize>> = case.request.as_ref().map(|r| r.iter().map(|i| *i as usize).collect());
    catch_unwind(|| rig::run(&case.file, request.as_deref())).unwrap_or_else(|_| Err("panic".into()))
}

/// Runs the work on a stack that is deep enough for every plan of 256 nodes.
pub fn on_deep_stack<T: Send + 'static>(work: impl FnOnce() -> T + Send + 'static) -> T {
    let thread = std::thread::Builder::new().stack_size(256 << 20).spawn(work);
    thread.expect("a thread").join().expect("the work ends")
}
