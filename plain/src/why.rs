//! Request Q-7, "Why was it not taken?".

use crate::due::{due_latches, due_source};
use crate::machine::{Machine, Mode, Options};
use crate::rom::whole_image;
use crate::step::look;

/// "which holds for that step, the first of". A set of sources has the bits of their latches; a source is its latch's number.
#[derive(Clone, Copy, Debug, PartialEq, Eq)]
pub enum Why {
    /// "sleeping or holding"
    Waiting,
    /// "EI clear"
    EiClear,
    /// "nothing latched"
    NothingLatched,
    /// "latched but all masked, with the sources"
    AllMasked { latched: u8 },
    /// "due but the stack level refuses it"
    LevelRefuses { due: u8 },
    /// "accepted, with the source and the due ones that must wait"
    Accepted { source: u8, waiting: u8 },
}

/// Refuses with 1, 2 and 3. "It speaks of latches after the frame's edges."
pub fn why(image: &[u8], options: Options, machine: &Machine, frame: &[u8]) -> Result<Why, u8> {
    whole_image(options.device, image)?;
    let seen = look(options, machine, frame)?.machine;
    Ok(if machine.mode == Mode::Running { reason(&seen) } else { Why::Waiting })
}

/// Of a running record that has seen the frame.
fn reason(seen: &Machine) -> Why {
    if !seen.ei {
        return Why::EiClear;
    }
    if seen.il == 0 {
        return Why::NothingLatched;
    }
    let due = due_latches(seen.il, seen.mask);
    match due_source(seen.il, seen.mask) {
        None => Why::AllMasked { latched: seen.il },
        // "SP must be 1 to 13."
        Some(_) if !(1..=13).contains(&seen.sp) => Why::LevelRefuses { due },
        Some((latch, _)) => Why::Accepted { source: latch.trailing_zeros() as u8, waiting: due & !latch },
    }
}

#[cfg(test)]
mod tests {
    use super::*;
    use crate::due::due_number;
    use crate::machine::fresh;
    use crate::{step, Device};

    const OPTIONS: Options = Options { device: Device::Em73862, wake: 0xFF, sound: false };

    fn asked(ei: bool, il: u8, mask: u8, sp: u8, frame: &[u8]) -> Why {
        let machine = Machine { ei, il, mask, sp, due: due_number(il, mask), ..fresh(OPTIONS.device) };
        why(&[0; 8192], OPTIONS, &machine, frame).expect("the record is valid")
    }

    #[test]
    fn the_first_that_holds() {
        assert_eq!(asked(false, 0b10_1111, 15, 0, b"FF1"), Why::EiClear);
        assert_eq!(asked(true, 0, 15, 0, b"FF1"), Why::NothingLatched);
        assert_eq!(asked(true, 0b00_1010, 1, 0, b"FF1"), Why::AllMasked { latched: 0b00_1010 });
        assert_eq!(asked(true, 0b00_1010, 2, 0, b"FF1"), Why::LevelRefuses { due: 0b00_0010 });
        assert_eq!(asked(true, 0b00_1010, 6, 13, b"FF1"), Why::Accepted { source: 3, waiting: 0b00_0010 });
        assert_eq!(asked(true, 0b00_0001, 1, 13, b"FB1"), Why::Accepted { source: 5, waiting: 0b00_0001 });
    }

    #[test]
    fn the_last_is_what_the_step_does() {
        let at_sp = |sp| Machine { ei: true, sp, ..fresh(OPTIONS.device) };
        for sp in 0..16 {
            let stepped = step(&[0; 8192], OPTIONS, &at_sp(sp), b"FB1").expect("the record is valid");
            let accepted = asked(true, 0, 0, sp, b"FB1") == Why::Accepted { source: 5, waiting: 0 };
            assert_eq!((accepted, !accepted), (stepped.machine.pc == 2, stepped.stop == 32), "SP {sp}");
        }
    }
}
