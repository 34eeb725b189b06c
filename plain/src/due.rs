//! Which interrupt is due by latches and mask.

pub const IL5: u8 = 1 << 5;
pub const IL3: u8 = 1 << 3;
pub const IL2: u8 = 1 << 2;
pub const IL1: u8 = 1 << 1;
pub const IL0: u8 = 1 << 0;

/// INT0, TRGA, TRGB, TBI, INT1, first to last: latch and entry. On the EM73P982 "INT1 is gone; the speech ending interrupt takes IL0
/// and 00Ch", and its place.
const SOURCES: [(u8, u16); 5] = [(IL5, 0x002), (IL3, 0x006), (IL2, 0x008), (IL1, 0x00A), (IL0, 0x00C)];

/// "If .. a latch is set and allowed by its mask, accept the first of INT0, TRGA, TRGB, TBI, INT1": its latch and entry.
pub fn due_source(il: u8, mask: u8) -> Option<(u8, u16)> {
    let due = due_latches(il, mask);
    SOURCES.into_iter().find(|(latch, _)| due & latch != 0)
}

/// The latches that are set and allowed by their mask bits.
pub fn due_latches(il: u8, mask: u8) -> u8 {
    il & allowed_latches(mask)
}

/// "the source that would be accepted were EI set, or none" (request Q-11): 0 none, else its place in the list from 1 on.
pub fn due_number(il: u8, mask: u8) -> u8 {
    match due_source(il, mask) {
        None => 0,
        Some(source) => 1 + SOURCES.iter().take_while(|before| **before != source).count() as u8,
    }
}

/// MASK2 allows TRGA, MASK1 TRGB and TBI, MASK0 INT1 or SPI; "INT0 needs EI only".
fn allowed_latches(mask: u8) -> u8 {
    let mut allowed = IL5;
    if mask & 0b0100 != 0 {
        allowed |= IL3;
    }
    if mask & 0b0010 != 0 {
        allowed |= IL2 | IL1;
    }
    if mask & 0b0001 != 0 {
        allowed |= IL0;
    }
    allowed
}

#[cfg(test)]
mod tests {
    use super::*;

    #[test]
    fn each_source_has_its_number() {
        let alone = [IL5, IL3, IL2, IL1, IL0].map(|latch| due_number(latch, 15));
        assert_eq!(alone, [1, 2, 3, 4, 5]);
        assert_eq!((due_number(0, 15), due_number(0b00_1111, 0), due_number(0b10_1111, 0)), (0, 0, 1));
        assert_eq!((due_number(IL1 | IL0, 3), due_number(IL1 | IL0, 1), due_number(IL3 | IL2, 2)), (4, 5, 3));
    }
}
