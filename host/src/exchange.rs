//! Demand 3, tried: lists of messages in two orders, one subject per file.
//!
//! "Start where the whole-area check passes, with 33 reply words. Take any
//! non-empty list of well-formed data messages for this terminal, with fixed
//! settings and no host write between. Exchange neighbours as often as you
//! like, if they use different cells whose windows don't meet, or that both
//! only send. All RAM outside the stack ends equal, and so does the stack
//! pointer. Each message keeps its reply, descriptor and interrupt word, except
//! the stack-rollover bit. The stack holds the last descriptors that fit, in
//! the new order; the remembered command and status are the new last
//! message's."

pub mod condition;
pub mod coverage;
pub mod draw;
pub mod list;
pub mod play;
pub mod replay;
pub mod run;
pub mod said;
pub mod shrink;

pub use condition::Forgotten;
pub use list::List;
pub use run::{compare_lists, Finding};
