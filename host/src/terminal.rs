//! The remote terminal, one subject per file.

pub mod boundary;
pub mod cells;
pub mod described;
pub(crate) mod faults;
pub mod label;
pub mod layout;
pub mod long;
pub mod message;
pub mod planted;
pub mod records;
pub mod refusal;
pub mod settings;
pub mod tables;
pub mod trace;
pub mod who;
pub mod words;
pub mod writes;

pub use cells::check_area;
pub use message::{carry_out, carry_out_planted, Answer, MessageRef, Remembered};
pub use planted::Planted;
pub use records::{read_record, read_record_planted, write_record, write_record_planted, Record};
pub use settings::Settings;
pub use trace::{stream_trace, trace_output};
