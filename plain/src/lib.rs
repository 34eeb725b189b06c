//! The EM73862 as document 01 describes it and the EM73P982 as request Q-6 does, with document 01's numbers as results.

mod bound;
mod code;
mod device;
mod display;
mod due;
mod execute;
mod frame;
mod hex;
mod listing;
mod machine;
mod notation;
mod ports;
mod rom;
mod rows;
mod sound;
mod stack;
mod step;
mod surroundings;
mod why;
mod worst;

pub mod numbers;

pub use bound::{bound, bound_counted, Bound, Count, Counted, MOST_PATH_BYTES};
pub use code::{read, write, Insn};
pub use device::Device;
pub use display::{display, DISPLAY_SIZE};
pub use due::due_number;
pub use execute::{add, short_call_target, subtract};
pub use frame::Frame;
pub use hex::{hex_record, is_hex_state, read_hex, text_size, write_hex, HexRefusal};
pub use listing::{compare_listing, listing_lines, step_line, Compared, HEADER};
pub use machine::{fresh, is_valid, reset, Machine, Mode, Options, Ports, RAM_SIZE};
pub use notation::{goes_to, notation};
pub use rom::{place_in_image, ADDRESSES, IMAGE_SIZE};
pub use rows::{Row, SheetRow, SHEET};
pub use sound::{sound_start, Sound, MOST_PULSES, PULSES_OVER_THE_LIMIT, TF_OF_ZERO_WHILE_ON};
pub use step::{act, look, run, step, Ran, Stepped, MOST_FRAMES};
pub use why::{why, Why};
pub use worst::{worst_of, Worst, WORST};
