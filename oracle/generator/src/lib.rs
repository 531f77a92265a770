//! Plans that document 01 accepts, inside its domain of equality with the Rust, from a seed.
mod cases;
mod exprs;
mod lines;
mod plans;
mod random;
mod sized;

pub use cases::{Case, Mix, case};
pub use lines::{hex, line, parse};
pub use random::Random;
pub use sized::{broad, random_of, sized};
