//! Two terminals side by side on the same inputs, one subject per file.

pub mod asked;
pub mod case;
mod classes;
pub mod control;
pub mod coverage;
pub mod episode;
pub mod labels;
pub mod long;
pub mod origins;
pub mod replay;
pub mod run;
pub mod shrink;
pub mod sides;
pub mod traces;
mod verdict;

pub use case::Case;
pub(crate) use classes::classes;
pub use run::{compare, Finding};
pub use sides::{Plain, Side};
pub use verdict::verdict;
