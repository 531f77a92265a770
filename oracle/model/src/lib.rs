//! Document 01, with what document 02 changed in it, both versions of the file, read a second time, in plain Rust: no contract, no proof, no claim to speed. It serves the generator,
//! the command `damage` and the naming of known differences. It is no part of the proved library.
mod accept;
mod answer;
mod dependencies;
mod exprs;
mod keys;
mod merge;
mod plan;
mod read;
mod read_nodes;
mod rewrite;
mod ways;
mod write;

pub use accept::{accept, clash, fields, find, fitting, names_alone};
pub use answer::{Answer, answer, answer_with};
pub use dependencies::determining;
pub use plan::*;
pub use read::{Fault, Reader};
pub use read_nodes::read;
pub use rewrite::rewrite;
pub use ways::{WAYS, Way, Ways};
pub use write::{nodes_in, tags_in, write};
