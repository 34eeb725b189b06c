//! The proved calls' answers: `Proved::new()` and `answers(&[Call]) -> Vec<Answer>`. See the crate archives for the two ways.

use plain::Device;
use std::sync::Arc;

pub struct Call {
    pub device: Device,
    pub image: Arc<Vec<u8>>,
    pub script: Vec<u8>,
    pub listing: Vec<u8>,
}

#[derive(Debug, PartialEq, Eq)]
pub struct Answer {
    pub number: u8,
    pub line: u64,
    pub field: u8,
}

#[cfg(linked)]
mod linked;
#[cfg(linked)]
pub use linked::Proved;

#[cfg(not(linked))]
mod served;
#[cfg(not(linked))]
pub use served::Proved;
