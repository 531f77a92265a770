//! Plan files to and from stand-in plans, and one run of the published pass.
//! The reader refuses what document 01 refuses, but with words instead of codes.
mod expressions;
mod fields;
mod nodes;
mod run;
mod write;

pub use datafusion_expr::LogicalPlan;
pub use fields::Version;
pub use nodes::{File, read};
pub use run::{pass, pass_asking, run, set_mask};
pub use write::write_plan;

pub type Answer<T> = Result<T, String>;

fn words<E: std::fmt::Display>(e: E) -> String {
    e.to_string()
}
