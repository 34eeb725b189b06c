//! What a step looks at besides the record.

use crate::frame::Frame;
use crate::machine::Options;
use crate::rom::Rom;

pub struct Surroundings<'a> {
    /// The image through the window of the record's P3.
    pub rom: Rom<'a>,
    pub options: Options,
    pub frame: Frame,
}
