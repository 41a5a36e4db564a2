//! A second, independent build of the MIL-STD-1553 remote terminal, and
//! what compares it with the proved one.
//!
//! [`terminal`] carries out messages and whole traces; [`text`] turns traces
//! into readable text and back; [`engine`] is the proved terminal behind its C
//! boundary (feature `engine`); [`compare`] runs two terminals side by side
//! on inputs of [`random`]; [`exchange`] plays lists of messages in two orders;
//! [`clock`] times terminals, and [`spread`] sums repeated measurements up.

pub mod clock;
pub mod compare;
pub mod controller;
#[cfg(feature = "engine")]
pub mod engine;
pub mod exchange;
#[cfg(feature = "engine")]
pub mod front;
pub mod random;
pub mod spread;
pub mod terminal;
pub mod text;
