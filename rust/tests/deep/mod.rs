use std::thread::{Builder, scope};

/// The work on a thread of 8 MiB: the plain form needs more than a test's own thread has where a file is of version 2.
pub fn on_deep_stack<T: Send>(work: impl FnOnce() -> T + Send) -> T {
    scope(|s| Builder::new().stack_size(8 << 20).spawn_scoped(s, work).unwrap().join().unwrap())
}
