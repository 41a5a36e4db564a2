//! Traces as text that people can read and write.
//!
//! [`pack`] turns text into the bytes that the trace program reads, [`unpack`]
//! turns any bytes back into text, and packing that text gives the same bytes
//! again. [`read_text`] has what the bytes have no place for too: settings and
//! owners. The README describes the lines.

mod lines;
pub mod list;
mod message;
mod owners;
mod pack;
mod settings;
mod tokens;
mod unpack;
mod unseen;

pub use owners::Owners;
pub(crate) use pack::Packer;
pub use pack::{pack, read_names, read_text, TraceText};
pub(crate) use settings::{read_settings, write_settings};
pub use tokens::TextError;
pub(crate) use tokens::{decimal, mismatch, shown, Mismatch, Tokens};
pub use unpack::{unpack, unpack_long, unpack_ram};
pub(crate) use unpack::{write_record, write_words};
pub use unseen::visible;
