//! The bits of the metadata byte.

pub const HAS_BOX: u8 = 1;
pub const HAS_SIZE: u8 = 1 << 1;
pub const HAS_IDS: u8 = 1 << 2;
pub const IS_EXTENDED: u8 = 1 << 3;
pub const IS_EMPTY: u8 = 1 << 4;
