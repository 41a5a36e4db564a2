//! The numbers that refuse, in the order in which they are tested.

pub const RAM_LENGTH: u16 = 1;
pub const REPLY_LENGTH: u16 = 2;
pub const SETTINGS: u16 = 3;
pub const RECORD_LENGTH: u16 = 4;
pub const RECORD_LAYOUT: u16 = 5;
pub const ADDRESS: u16 = 6;
pub const SUBADDRESS: u16 = 7;
pub const STACK: u16 = 8;
pub const CELL: u16 = 9;
pub const LOSES_NUMBER: u16 = 10;
pub const BEYOND_RAM: u16 = 12;
/// A start address with fewer than two words left.
pub const START: u16 = 15;
