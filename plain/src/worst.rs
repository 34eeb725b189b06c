//! Images on which a bound takes long.

use crate::rom::IMAGE_SIZE;

/// The kinds of them; from "routines" on with calls.
pub const WORST: [&str; 9] =
    ["chain", "ladder", "knot", "ring", "routines", "descent", "doubling", "recursion", "unrolled"];

/// TFA 0: one byte, and its S column makes SF unknown.
const TEST: u8 = 0xF8;
/// LDIA 0: one byte, and its S column makes SF known.
const LOAD: u8 = 0xD0;
const RTI: u8 = 0x4D;
const RET: u8 = 0x4F;
const NOP: u8 = 0x56;

/// Calls go to addresses below this one.
const ENTRIES: usize = 0x800;

pub struct Worst {
    pub image: [u8; IMAGE_SIZE],
    pub start: usize,
    /// The answer that is due.
    pub answer: &'static str,
}

/// The image of one of the `WORST`.
pub fn worst_of(kind: &str) -> Option<Worst> {
    let mut image = [0; IMAGE_SIZE];
    Some(match kind {
        "chain" => {
            write_chain(&mut image);
            image[0] = RTI;
            image[1] = sbr(0);
            image[2] = sbr(1);
            Worst { image, start: 0x1FFF, answer: "N" }
        }
        "ring" => {
            write_chain(&mut image);
            slbr(&mut image, 0, 0x1FFF);
            Worst { image, start: 0x1FFF, answer: "refused 22 0000" }
        }
        "ladder" => {
            write_ladder(&mut image, 128);
            image[0x1FFD] = sbr(0x1FFF);
            image[0x1FFE] = TEST;
            image[0x1FFF] = RTI;
            Worst { image, start: 0, answer: "N" }
        }
        "knot" => {
            write_ladder(&mut image, 127);
            // The ladder ends known, so that its last branch has only its target.
            image[0x1FBD] = LOAD;
            lbr(&mut image, 0x1FBE, 0x1FFF);
            image[0x1FFF] = sbr(0x1FFF);
            // The start is on a repetition too: all of the ladder lies between two of them.
            image[0x1FF0] = TEST;
            image[0x1FF1] = sbr(0x1FF0);
            slbr(&mut image, 0x1FF2, 0);
            Worst { image, start: 0x1FF0, answer: "refused 22 1FF0" }
        }
        _ => return worst_with_calls(kind),
    })
}

fn worst_with_calls(kind: &str) -> Option<Worst> {
    let mut image = [RTI; IMAGE_SIZE];
    let (start, answer) = match kind {
        // Calls of all the addresses that can be called but one, each of which goes through a ladder to the same RET.
        "routines" => {
            write_ladder(&mut image, 64);
            image[0x0FFD..0x1000].fill(RET);
            for entry in 0..ENTRIES - 1 {
                lcall(&mut image, 0x1000 + 2 * entry, entry);
            }
            (0x1000, "refused 25")
        }
        // Each routine calls the next and returns.
        "descent" => {
            write_calls(&mut image, 3, |routine, _| routine + 1);
            (0x1000, "N")
        }
        // Each routine calls the next and goes on into it.
        "doubling" => {
            write_calls(&mut image, 2, |routine, _| routine + 1);
            (0x1000, "refused 25")
        }
        // Each routine calls the one as far from the end as it is from the beginning, and goes on into the next.
        "recursion" => {
            write_calls(&mut image, 2, |routine, last| last - 1 - routine);
            (0x1000, "refused 24 0000")
        }
        // A routine of 4,087 rows, called 16 times.
        "unrolled" => {
            image[..0x0FF6].fill(NOP);
            image[0x0FF6] = RET;
            for call in 0..16 {
                lcall(&mut image, 0x1000 + 2 * call, 0);
            }
            (0x1000, "N")
        }
        _ => return None,
    };
    Some(Worst { image, start, answer })
}

/// Routines of so many bytes from address 0 on, each a call and then RETs as far as it has room; the last returns at once. A call goes to
/// the routine that is told for its own number and the last one's. The handler at 1000 calls the first.
fn write_calls(image: &mut [u8; IMAGE_SIZE], bytes: usize, called: impl Fn(usize, usize) -> usize) {
    image[..ENTRIES + bytes].fill(RET);
    let last = ENTRIES / bytes - 1;
    for routine in 0..last {
        lcall(image, bytes * routine, bytes * called(routine, last));
    }
    lcall(image, 0x1000, 0);
}

/// Each row branches to the row before it. SBR does not leave its page, nor LBR its half: the
/// first row of a page or half is a longer branch.
fn write_chain(image: &mut [u8; IMAGE_SIZE]) {
    for address in 1..8192 {
        image[address] = sbr(address - 1);
    }
    for page in (0x40..8192).step_by(0x40) {
        lbr(image, page, page - 1);
        image[page + 2] = sbr(page);
    }
    slbr(image, 0x1000, 0x0FFF);
    image[0x1003] = sbr(0x1000);
    image[3] = sbr(0);
}

/// A test and a branch to the next branch by turns: each test is reached known, each branch
/// unknown from its test and known from the branch before. That is three places in two bytes.
/// The last branch of a page goes to the first of the next page.
fn write_ladder(image: &mut [u8; IMAGE_SIZE], pages: usize) {
    for page in (0..pages).map(|number| 0x40 * number) {
        for address in (page..page + 0x40).step_by(2) {
            image[address] = TEST;
            image[address + 1] = sbr(address + 3);
        }
        lbr(image, page + 0x3D, page + 0x41);
        image[page + 0x3F] = TEST;
    }
    slbr(image, 0x0FFD, 0x1001);
}

fn sbr(target: usize) -> u8 {
    (target & 0x3F) as u8
}

fn lcall(image: &mut [u8; IMAGE_SIZE], at: usize, entry: usize) {
    image[at] = 0x40 | (entry >> 8) as u8;
    image[at + 1] = entry as u8;
}

fn lbr(image: &mut [u8; IMAGE_SIZE], at: usize, target: usize) {
    image[at] = 0xC0 | (target >> 8 & 15) as u8;
    image[at + 1] = target as u8;
}

fn slbr(image: &mut [u8; IMAGE_SIZE], at: usize, target: usize) {
    lbr(image, at + 1, target);
    image[at] = if target >= 0x1000 { 0x55 } else { 0x57 };
}

#[cfg(test)]
mod tests {
    use super::*;
    use crate::bound::{bound, Bound, MOST_PATH_BYTES};
    use crate::device::Device;

    #[test]
    fn each_has_its_answer() {
        for kind in WORST {
            let worst = worst_of(kind).expect("each of the worst has an image");
            let [mut path, mut deep] = [vec![0; MOST_PATH_BYTES], vec![0; MOST_PATH_BYTES]];
            let answer = bound(Device::Em73862, &worst.image, 0, worst.start as u32, &mut path, &mut deep);
            let words = match answer {
                Bound::Cycles { .. } => "N".to_string(),
                Bound::Repetition(lowest) | Bound::Recursion(lowest) => {
                    format!("refused {} {lowest:04X}", answer.number())
                }
                _ => format!("refused {}", answer.number()),
            };
            assert_eq!(words, worst.answer, "{kind}");
            if let Bound::Cycles { most, path_bytes, depth, .. } = answer {
                match kind {
                    // 682 calls, each with a RET, and the RTI.
                    "descent" => assert_eq!((most, path_bytes, depth), (2_730, 2 * 1_365, 682)),
                    "unrolled" => assert_eq!((most, path_bytes, depth), (65_442, 2 * 65_409, 1)),
                    _ => assert_eq!(depth, 0),
                }
            }
        }
    }
}
