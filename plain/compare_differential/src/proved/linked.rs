//! The archive linked into this program.

use super::{Answer, Call};
use plain::Device;

/// The headers, a slice being a pointer and a length.
mod header {
    type Compare = unsafe extern "C" fn(*const u8, usize, *const u8, usize, *const u8, usize, *mut u64, *mut u8) -> u8;

    extern "C" {
        fn em73862_compare(
            image: *const u8,
            image_length: usize,
            script: *const u8,
            script_length: usize,
            listing: *const u8,
            listing_length: usize,
            line: *mut u64,
            field: *mut u8,
        ) -> u8;
        fn em73p982_compare(
            image: *const u8,
            image_length: usize,
            script: *const u8,
            script_length: usize,
            listing: *const u8,
            listing_length: usize,
            line: *mut u64,
            field: *mut u8,
        ) -> u8;
    }

    pub const EM73862: Compare = em73862_compare;
    pub const EM73P982: Compare = em73p982_compare;
}

pub struct Proved;

impl Proved {
    #[allow(clippy::new_without_default)]
    pub fn new() -> Proved {
        Proved
    }

    pub fn answers(&mut self, calls: &[Call]) -> Vec<Answer> {
        calls.iter().map(answer).collect()
    }
}

/// Every pointer below is that of a whole slice or of a number, with the slice's length beside it, as the header asks.
fn answer(call: &Call) -> Answer {
    let compare = if call.device == Device::Em73862 { header::EM73862 } else { header::EM73P982 };
    let (mut line, mut field) = (0xAAAA_AAAA, 0xAA);
    let number = unsafe {
        compare(
            call.image.as_ptr(),
            call.image.len(),
            call.script.as_ptr(),
            call.script.len(),
            call.listing.as_ptr(),
            call.listing.len(),
            &mut line,
            &mut field,
        )
    };
    Answer { number, line, field }
}
