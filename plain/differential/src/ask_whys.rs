//! Why an interrupt is taken or not, beside what a step then does.

use crate::ask_steps::{options, pins_after};
use crate::asker::{Asker, Difference};
use crate::calls::{Call, Image, Kind};
use crate::chance::Chance;
use crate::frames::{bad_of_any_length, idle};
use crate::images::{of_wrong_size, whole, Codes};
use crate::layout::{machine_of, record_of};
use crate::records::{spoilt, valid};
use plain::{due_number, numbers, Device, Machine};

/// Where the source of each latch goes; IL4 is of none.
const ENTRIES: [u16; 6] = [0x00C, 0x00A, 0x008, 0x006, 0, 0x002];

/// The cases of the header that say something of the step.
const LEVEL_REFUSES: u32 = 5;
const ACCEPTED: u32 = 6;

pub fn whys(asker: &mut Asker, chance: &mut Chance, codes: &Codes, wanted: u64) -> Result<(), Difference> {
    while asker.asked(codes.device, Kind::Why) < wanted {
        let image = whole(chance, codes);
        for _ in 0..64 {
            why_then_step(asker, chance, codes.device, &image)?;
        }
        refused_why(asker, chance, codes.device, &image)?;
    }
    asker.compare_queued()
}

fn why_then_step(asker: &mut Asker, chance: &mut Chance, device: Device, image: &Image) -> Result<(), Difference> {
    let (wake, sound) = options(chance);
    let record = record_of(&interruptible(chance, device));
    let frame = pins_after(chance, device, &record).next(chance);
    let why = Call::Why { device, image: image.clone(), wake, sound, record: record.clone(), frame: frame.clone() };
    let why = asker.ask(why)?.clone();
    let step = asker.ask(Call::Step { device, image: image.clone(), wake, sound, record, frame })?;
    let stepped = machine_of(&step.buffer);
    if why.values[0] == ACCEPTED {
        let pc = stepped.map(|machine| machine.pc);
        assert_eq!((step.number, pc), (0, Some(ENTRIES[why.values[1] as usize])), "what is accepted is stepped to");
    }
    assert!(why.values[0] != LEVEL_REFUSES || step.number == numbers::STACK_LEVEL, "a level that refuses stops");
    Ok(())
}

/// A valid record, most often with EI set, and any latches, mask and stack pointer.
fn interruptible(chance: &mut Chance, device: Device) -> Machine {
    let mut machine = valid(chance, device);
    machine.ei = !chance.one_in(6);
    machine.il = match chance.below(4) {
        0 => 0,
        1 => 1 << chance.pick(&[0, 1, 2, 3, 5]),
        2 => chance.byte() & 0b00_1111,
        _ => chance.byte() & 0b10_1111,
    };
    machine.mask = if chance.one_in(2) { chance.byte() & 15 } else { 15 };
    machine.sp = if chance.one_in(3) { chance.pick(&[0, 14, 15]) } else { 1 + chance.below(13) as u8 };
    machine.due = due_number(machine.il, machine.mask);
    machine
}

/// One wrong input, now and then with more: the table's order decides.
fn refused_why(asker: &mut Asker, chance: &mut Chance, device: Device, image: &Image) -> Result<(), Difference> {
    for wrong in 1..8 {
        let (wake, sound) = options(chance);
        let image = if wrong & 1 != 0 { of_wrong_size(chance, device) } else { image.clone() };
        let record = if wrong & 2 != 0 { spoilt(chance, device) } else { record_of(&interruptible(chance, device)) };
        let frame = if wrong & 4 != 0 { bad_of_any_length(chance, device) } else { idle(device).to_vec() };
        asker.ask(Call::Why { device, image, wake, sound, record, frame })?;
    }
    Ok(())
}
