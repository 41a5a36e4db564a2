//! A bus controller that runs an instruction list (request 14), written from
//! the makers' guide, document 000 section 5.8, one subject per file.

pub mod machine;
pub mod opcode;
pub mod outcome;
pub mod planted;

pub use machine::{go_on, go_on_planted, start, start_planted, End, Machine, Ran};
pub use outcome::Outcome;
pub use planted::Planted;
