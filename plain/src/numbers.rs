//! The numbers of document 01's table "What comes back".

pub const NONE: u8 = 0;
pub const IMAGE_SIZE: u8 = 1;
pub const RECORD_RANGE: u8 = 2;
pub const NO_FRAME: u8 = 3;
pub const TOO_MANY_FRAMES: u8 = 4;
pub const DISPLAY_BUFFER: u8 = 5;
pub const WRITER: u8 = 11;
pub const ADDRESS: u8 = 20;
pub const EXCLUDED: u8 = 21;
pub const REPETITION: u8 = 22;
pub const PATH_BUFFER: u8 = 23;
///
pub const RECURSION: u8 = 24;
pub const TOO_MANY_CYCLES: u8 = 25;
pub const UNASSIGNED: u8 = 30;
pub const ABSENT_RAM: u8 = 31;
pub const STACK_LEVEL: u8 = 32;
pub const ABSENT_PORT: u8 = 33;
pub const RESERVED_SETTING: u8 = 34;
///
pub const PAST_END: u8 = 35;
