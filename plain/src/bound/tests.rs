use super::*;
use crate::rom::IMAGE_SIZE;

fn bound(image: &[u8], address: u32, path: &mut [u8], deep: &mut [u8]) -> Bound {
    super::bound(Device::Em73862, image, 0, address, path, deep)
}

fn image_with(codes: &[(usize, &[u8])]) -> Vec<u8> {
    let mut image = vec![0; IMAGE_SIZE];
    for (address, code) in codes {
        image[*address..address + code.len()].copy_from_slice(code);
    }
    image
}

/// N and the depth, each with its path, or the refusal.
fn both(image: &[u8], address: u32) -> Result<[(u32, Vec<u16>); 2], Bound> {
    let [mut path, mut deep] = [vec![0; MOST_PATH_BYTES], vec![0; MOST_PATH_BYTES]];
    let addresses = |path: &[u8]| path.chunks(2).map(|pair| u16::from_le_bytes([pair[0], pair[1]])).collect();
    match bound(image, address, &mut path, &mut deep) {
        Bound::Cycles { most, path_bytes, depth, deep_bytes } => {
            Ok([(most, addresses(&path[..path_bytes])), (depth, addresses(&deep[..deep_bytes]))])
        }
        refusal => Err(refusal),
    }
}

/// N and its path, or the refusal.
fn bounded(image: &[u8], address: u32) -> Result<(u32, Vec<u16>), Bound> {
    both(image, address).map(|[longest, _]| longest)
}

/// The depth and its path, or the refusal.
fn deepest(image: &[u8], address: u32) -> Result<(u32, Vec<u16>), Bound> {
    both(image, address).map(|[_, deepest]| deepest)
}

fn worked() -> Vec<u8> {
    image_with(&[(0x10, &[0x6A, 0x20, 0x6E, 0x61, 0x18, 0xD1, 0x69, 0x21, 0x4D])])
}

#[test]
fn worked_values() {
    let image = worked();
    assert_eq!(bounded(&image, 0x10), Ok((10, vec![0x10, 0x12, 0x14, 0x15, 0x16, 0x18])));
    assert_eq!(bounded(&image, 0x14), Ok((3, vec![0x14, 0x18])));
    assert_eq!(bounded(&[0; IMAGE_SIZE], 0), Err(Bound::Repetition(0)));
}

#[test]
fn path_buffers() {
    // TFA 0, SBR 0104, RTI, and at 0104 NOP, RTI: N's path has four addresses, the depth's three.
    let image = image_with(&[(0x100, &[0xF8, 0x04, 0x4D, 0x00, 0x56, 0x4D])]);
    let both = [[0, 1, 1, 1, 4, 1, 5, 1, 0xEE, 0xEE], [0, 1, 1, 1, 2, 1, 0xEE, 0xEE, 0xEE, 0xEE]];
    let cycles = Bound::Cycles { most: 5, path_bytes: 8, depth: 0, deep_bytes: 6 };
    for (room, deep_room, answer) in [
        (8, 6, cycles),
        (10, 10, cycles),
        (7, 6, Bound::PathBuffer(8)),
        (0, 0, Bound::PathBuffer(8)),
        (8, 5, Bound::PathBuffer(6)),
        (10, 0, Bound::PathBuffer(6)),
        (6, 10, Bound::PathBuffer(8)),
    ] {
        let mut buffers = [vec![0xEE; room], vec![0xEE; deep_room]];
        let [path, deep] = &mut buffers;
        assert_eq!(bound(&image, 0x100, path, deep), answer);
        let written = if answer == cycles { both } else { [[0xEE; 10]; 2] };
        assert_eq!((&buffers[0][..], &buffers[1][..]), (&written[0][..room], &written[1][..deep_room]));
    }
}

#[test]
fn refusals_come_in_their_order() {
    let bound = |image: &[u8], address| super::bound(Device::Em73862, image, 0, address, &mut [], &mut []);
    assert_eq!(bound(&[0x54; 8191], 8192), Bound::ImageSize);
    assert_eq!(bound(&[0x54; 8193], 8192), Bound::ImageSize);
    assert_eq!(bound(&[0x54; 8192], 8192), Bound::AddressOver8191);
    assert_eq!(bound(&[0x54; 8192], 8191), Bound::Excluded(8191));
    assert_eq!(bound(&[0x4D; 8192], 8191), Bound::PathBuffer(2));
    // SCALL 000E calls itself, before STASP and a repetition.
    assert_eq!(
        bound(&image_with(&[(0x0E, &[0xE1, 0x69, 0xFF]), (0x100, &[0xE1, 0x54])]), 0x100),
        Bound::Recursion(0x0E)
    );
    assert_eq!(bound(&doubling(), 0x100), Bound::TooManyCycles);
    let numbers = [
        Bound::ImageSize,
        Bound::P3,
        Bound::AddressOver8191,
        Bound::Recursion(0),
        Bound::Excluded(0),
        Bound::Repetition(0),
        Bound::TooManyCycles,
        Bound::PathBuffer(0),
        Bound::Cycles { most: 0, path_bytes: 0, depth: 0, deep_bytes: 0 },
    ];
    assert_eq!(numbers.map(Bound::number), [1, 2, 20, 24, 21, 22, 25, 23, 0]);
}

/// At 0100 a call of the first of sixteen routines, each of which calls the next four times.
fn doubling() -> Vec<u8> {
    let mut image = vec![0; IMAGE_SIZE];
    image[0x100..0x103].copy_from_slice(&[0x42, 0x00, 0x4D]);
    for routine in 0..16u8 {
        let at = 0x200 + 0x10 * routine as usize;
        let next = [0x42, 0x10 * (routine + 1)];
        let calls = if routine < 15 { next.repeat(4) } else { Vec::new() };
        image[at..at + calls.len()].copy_from_slice(&calls);
        image[at + calls.len()] = 0x4F;
    }
    image
}

#[test]
fn excluded_rows() {
    let excluded: [&[u8]; 6] = [&[0x69, 0xFF], &[0x54], &[0x63, 0x40], &[0x6F, 0x10], &[0x6F, 0x90], &[0x6E, 0x00]];
    for code in excluded {
        let image = image_with(&[(0x100, &[0x56]), (0x101, code), (0x103, &[0x4D])]);
        assert_eq!(bounded(&image, 0x100), Err(Bound::Excluded(0x101)), "{code:02X?}");
        let image = image_with(&[(0x0E, code), (0x10, &[0x4F]), (0x100, &[0xE1, 0x4D])]);
        assert_eq!(bounded(&image, 0x100), Err(Bound::Excluded(0x0E)), "{code:02X?}");
    }
    // RTI in a called routine, RET outside of one.
    assert_eq!(bounded(&image_with(&[(0x0E, &[0x4D]), (0x100, &[0xE1, 0x4D])]), 0x100), Err(Bound::Excluded(0x0E)));
    assert_eq!(bounded(&image_with(&[(0x0E, &[0x4F]), (0x100, &[0xE1, 0x4F])]), 0x100), Err(Bound::Excluded(0x101)));
    // DICIL and CIL do not set EI; a row that can only stop is an ordinary one.
    for code in [[0x63, 0x80], [0x63, 0xC0], [0x6F, 0x1A]] {
        let image = image_with(&[(0x100, &code), (0x102, &[0x4D])]);
        assert_eq!(bounded(&image, 0x100), Ok((4, vec![0x100, 0x102])), "{code:02X?}");
    }
}

#[test]
fn excluded_rows_come_before_repetitions_and_the_lowest_is_told() {
    // NOP, SBR 0100, RET: the repetition is lower and nearer than the RET.
    let image = image_with(&[(0x100, &[0x56, 0x00, 0x4F])]);
    assert_eq!(bounded(&image, 0x100), Err(Bound::Excluded(0x102)));
    // NOP, SBR 0103, RET, LBR 0080: the other RET is lower and farther.
    let image = image_with(&[(0x100, &[0x56, 0x03, 0x4F, 0xC0, 0x80]), (0x80, &[0x4F])]);
    assert_eq!(bounded(&image, 0x100), Err(Bound::Excluded(0x80)));
}

#[test]
fn only_places_that_come_back_are_repeated() {
    // 0040 leads to the repetition of 0050 and 0051, and is not on it.
    let image = image_with(&[(0x40, &[0x10]), (0x50, &[0x56, 0x10, 0x4D])]);
    assert_eq!(bounded(&image, 0x40), Err(Bound::Repetition(0x50)));
    assert_eq!(bounded(&image, 0x51), Err(Bound::Repetition(0x50)));
}

#[test]
fn an_address_reached_known_and_unknown_is_no_repetition() {
    // TFA, SBR 0043, SBR 0041, RTI: the path has 0041 unknown, then known.
    let image = image_with(&[(0x40, &[0xF8, 0x03, 0x01, 0x4D])]);
    assert_eq!(bounded(&image, 0x40), Ok((6, vec![0x40, 0x41, 0x42, 0x41, 0x43])));
}

#[test]
fn equal_sums_take_the_next_instruction() {
    // TFA, SBR 0050, RTI, and another RTI there.
    let image = image_with(&[(0x40, &[0xF8, 0x10, 0x4D]), (0x50, &[0x4D])]);
    assert_eq!(bounded(&image, 0x40), Ok((4, vec![0x40, 0x41, 0x42])));
}

#[test]
fn next_instructions_wrap() {
    // NOP in 1FFF, RTI in 0000.
    let image = image_with(&[(0x1FFF, &[0x56]), (0, &[0x4D])]);
    assert_eq!(bounded(&image, 0x1FFF), Ok((3, vec![0x1FFF, 0x0000])));
}

#[test]
fn a_code_that_passes_the_end_is_excluded() {
    // LDA 20h in 1FFF and 0000.
    let image = image_with(&[(0x1FFF, &[0x6A]), (0, &[0x20, 0x4D])]);
    assert_eq!(bounded(&image, 0x1FFF), Err(Bound::Excluded(0x1FFF)));
}

#[test]
fn calls_stand_in_their_turn() {
    // SCALL 000E twice, RTI; SCALL 0016, RET; LDIA, RET.
    let image = image_with(&[(0x100, &[0xE1, 0xE1, 0x4D]), (0x0E, &[0xE2, 0x4F]), (0x16, &[0xD3, 0x4F])]);
    let path = vec![0x100, 0x0E, 0x16, 0x17, 0x0F, 0x101, 0x0E, 0x16, 0x17, 0x0F, 0x102];
    assert_eq!(both(&image, 0x100), Ok([(20, path.clone()), (2, path)]));
}

#[test]
fn sf_after_a_call_is_known_where_every_ret_is() {
    // SCALL 000E, SBR 0104, two NOPs, RTI, with routines that end known, unknown, both ways, and by another that ends known.
    let after = |routine: &[u8]| {
        let codes: [(usize, &[u8]); 3] =
            [(0x100, &[0xE1, 0x04, 0x56, 0x56, 0x4D]), (0x0E, routine), (0x16, &[0xD3, 0x4F])];
        bounded(&image_with(&codes), 0x100).map(|(most, _)| most)
    };
    assert_eq!(after(&[0xD3, 0x4F]), Ok(8));
    assert_eq!(after(&[0x56, 0x4F]), Ok(10));
    assert_eq!(after(&[0x4F]), Ok(9));
    assert_eq!(after(&[0xF8, 0x11, 0x56, 0x4F]), Ok(12));
    assert_eq!(after(&[0xF8, 0x11, 0xD3, 0x4F]), Ok(10));
    assert_eq!(after(&[0xE2, 0x4F]), Ok(12));
    // No RET is reached: known, so that the EICIL behind the branch is not.
    let image = image_with(&[(0x100, &[0xE1, 0x04, 0x63, 0x40, 0x4D]), (0x0E, &[0xD3, 0x0E])]);
    assert_eq!(bounded(&image, 0x100), Err(Bound::Repetition(0x0E)));
}

#[test]
fn recursion_is_judged_with_sf_unknown_after_every_call() {
    // 000E: SCALL 0016, SBR 0012, SCALL 000E, RET, RET; 0016: LDIA, RET. After the call SF is known, and the inner SCALL never runs.
    let image = image_with(&[(0x100, &[0xE1, 0x4D]), (0x0E, &[0xE2, 0x12, 0xE1, 0x4F, 0x4F]), (0x16, &[0xD3, 0x4F])]);
    assert_eq!(bounded(&image, 0x100), Err(Bound::Recursion(0x0E)));
    // 000E leads to 0016 and 001E, which call each other, and is not named; nor is the handler, which calls its own start.
    let codes: [(usize, &[u8]); 4] =
        [(0x100, &[0xE1, 0x4D]), (0x0E, &[0xE2, 0x4F]), (0x16, &[0xE3, 0x4F]), (0x1E, &[0xE2, 0x4F])];
    assert_eq!(bounded(&image_with(&codes), 0x100), Err(Bound::Recursion(0x16)));
    assert_eq!(bounded(&image_with(&[(0x100, &[0x56, 0x41, 0x01, 0x4D])]), 0x100), Err(Bound::Recursion(0x101)));
    // EICIL has no next place.
    let image = image_with(&[(0x100, &[0xE1, 0x4D]), (0x0E, &[0x63, 0x40, 0xE1, 0x4F])]);
    assert_eq!(bounded(&image, 0x100), Err(Bound::Excluded(0x0E)));
}

#[test]
fn repetitions_are_those_of_one_routine() {
    // The handler and two routines go through the same tail, one called by the other.
    let codes: [(usize, &[u8]); 3] =
        [(0x100, &[0xD3, 0x42, 0x00, 0x4D]), (0x200, &[0xD3, 0x42, 0x10, 0x56, 0x4F]), (0x210, &[0xD3, 0xC2, 0x03])];
    assert_eq!(bounded(&image_with(&codes), 0x100).map(|(most, _)| most), Ok(17));
    // NOP, SCALL 000E, TFA 0, SBR 0101: over the call.
    let image = image_with(&[(0x100, &[0x56, 0xE1, 0xF8, 0x01, 0x4D]), (0x0E, &[0x4F])]);
    assert_eq!(bounded(&image, 0x100), Err(Bound::Repetition(0x101)));
}

#[test]
fn the_depth_is_reached_as_late_as_the_next_instruction_allows() {
    let routines: [(usize, &[u8]); 2] = [(0x0E, &[0xF8, 0x11, 0x4F, 0xE2, 0x4F]), (0x16, &[0x4F])];
    let with = |handler: &[u8]| image_with(&[(0x100, handler), routines[0], routines[1]]);
    // 000E goes deeper by its target: the first call need not, the second must.
    let image = with(&[0xE1, 0xE1, 0x4D]);
    let path = [0x100, 0x0E, 0x0F, 0x10, 0x101, 0x0E, 0x0F, 0x11, 0x16, 0x12, 0x102];
    assert_eq!(deepest(&image, 0x100), Ok((2, path.to_vec())));
    // TFA 0, SBR 0105, SCALL 000E, NOP, RTI, and at 0105 SCALL 000E, RTI: both ways are as deep.
    let image = with(&[0xF8, 0x05, 0xE1, 0x56, 0x4D, 0xE1, 0x4D]);
    let path = [0x100, 0x101, 0x102, 0x0E, 0x0F, 0x11, 0x16, 0x12, 0x103, 0x104];
    assert_eq!(deepest(&image, 0x100), Ok((2, path.to_vec())));
    // TFA 0, SBR 0104, NOP, RTI, and at 0104 SCALL 0016, RTI: only the target is deep.
    let image = with(&[0xF8, 0x04, 0x56, 0x4D, 0xE2, 0x4D]);
    assert_eq!(deepest(&image, 0x100), Ok((1, vec![0x100, 0x101, 0x104, 0x16, 0x105])));
}
