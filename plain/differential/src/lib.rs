//! The proved calls of include/em73862.h and include/em73p982.h beside the plain emulator: the same inputs to both, and every number and byte of
//! the two answers compared, with each other and, for the cases of `cases`, with an answer written from the documents.

pub mod ask_bounds;
pub mod ask_codes;
pub mod ask_records;
pub mod ask_steps;
pub mod ask_whys;
pub mod asker;
pub mod calling;
pub mod calls;
pub mod cases;
pub mod chance;
pub mod coverage;
pub mod frames;
pub mod images;
pub mod layout;
pub mod plainly;
pub mod proved;
pub mod records;
