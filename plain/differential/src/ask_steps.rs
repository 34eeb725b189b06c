//! Steps and runs.

use crate::asker::{Asker, Difference};
use crate::calls::{Call, Image, Kind};
use crate::chance::Chance;
use crate::frames::{bad, bad_of_any_length, idle, Pins};
use crate::images::{calm, ending, of_wrong_size, whole, Codes};
use crate::layout::{self, machine_of, record_of};
use crate::records::{self, fresh_or_valid, spoilt, valid};
use plain::{Device, Frame, MOST_FRAMES};

/// Single steps from records that are anything valid, and walks, in which a step goes on from what the one before left.
pub fn steps(asker: &mut Asker, chance: &mut Chance, codes: &Codes, wanted: u64) -> Result<(), Difference> {
    while asker.asked(codes.device, Kind::Step) < wanted {
        let image = whole(chance, codes);
        for _ in 0..64 {
            walk(asker, chance, codes, &image, 1)?;
        }
        for _ in 0..chance.pick(&[1, 2, 4]) {
            let length = chance.pick(&[5, 20, 60, 300]);
            walk(asker, chance, codes, &image, length)?;
        }
    }
    asker.compare_queued()
}

fn walk(asker: &mut Asker, chance: &mut Chance, codes: &Codes, image: &Image, length: usize) -> Result<(), Difference> {
    let device = codes.device;
    let (wake, sound) = options(chance);
    let mut record = record_of(&if length == 1 { valid(chance, device) } else { fresh_or_valid(chance, device) });
    let image = &perhaps_ending(chance, codes, image, &mut record);
    let mut pins = pins_after(chance, device, &record);
    for _ in 0..length {
        if chance.one_in(25) {
            refused_step(asker, chance, device, image, &record)?;
        }
        let frame = pins.next(chance);
        let call = Call::Step { device, image: image.clone(), wake, sound, record: record.clone(), frame };
        let answer = asker.ask(call)?;
        if answer.number == 0 {
            record.copy_from_slice(&answer.buffer);
            // Nothing wakes some sleepers.
            if record[layout::MODE] != 0 && chance.one_in(16) {
                return Ok(());
            }
        } else if chance.one_in(4) {
            return Ok(());
        } else {
            // A walk that stops goes on somewhere else with the state that it has.
            record[layout::PC] = chance.byte();
            record[layout::PC + 1] = chance.byte() & 0x1F;
        }
    }
    Ok(())
}

/// One in twelve begins at a code at the end of the image, which most often passes it.
fn perhaps_ending(chance: &mut Chance, codes: &Codes, image: &Image, record: &mut [u8]) -> Image {
    if !chance.one_in(12) {
        return image.clone();
    }
    let (image, start) = ending(chance, codes, image);
    record[layout::PC..layout::PC + 2].copy_from_slice(&start.to_le_bytes());
    image
}

/// A step with one wrong input, now and then with more: the table's order decides.
fn refused_step(
    asker: &mut Asker,
    chance: &mut Chance,
    device: Device,
    image: &Image,
    record: &[u8],
) -> Result<(), Difference> {
    let wrong = chance.pick(&[1, 2, 2, 2, 4, 4, 4, 3, 5, 6, 7]);
    let (wake, sound) = options(chance);
    asker.ask(Call::Step {
        device,
        image: if wrong & 1 != 0 { of_wrong_size(chance, device) } else { image.clone() },
        wake,
        sound,
        record: if wrong & 2 != 0 { spoilt(chance, device) } else { record.to_vec() },
        frame: if wrong & 4 != 0 { bad_of_any_length(chance, device) } else { idle(device).to_ascii_lowercase() },
    })?;
    Ok(())
}

/// Looks and acts, apart: on records of every kind, marked ones among them, a look and then an act must be the step.
pub fn apart(asker: &mut Asker, chance: &mut Chance, codes: &Codes, wanted: u64) -> Result<(), Difference> {
    let least = |asker: &Asker| [Kind::Look, Kind::Act].map(|kind| asker.asked(codes.device, kind)).into_iter().min();
    while least(asker) < Some(wanted) {
        let image = whole(chance, codes);
        for _ in 0..64 {
            look_then_act(asker, chance, codes, &image)?;
            refused_apart(asker, chance, codes.device, &image)?;
        }
    }
    asker.compare_queued()
}

fn look_then_act(asker: &mut Asker, chance: &mut Chance, codes: &Codes, image: &Image) -> Result<(), Difference> {
    let device = codes.device;
    let (wake, sound) = options(chance);
    let mut record = record_of(&fresh_or_valid(chance, device));
    let image = &perhaps_ending(chance, codes, image, &mut record);
    // A second call with no first: a sleeper or a marked record is passed by.
    asker.ask(Call::Act { device, image: image.clone(), wake, sound, record: record.clone() })?;
    let frame = pins_after(chance, device, &record).next(chance);
    let look = Call::Look { device, wake, sound, record: record.clone(), frame: frame.clone() };
    let look = asker.ask(look)?.clone();
    let act = asker.ask(Call::Act { device, image: image.clone(), wake, sound, record: look.buffer })?.clone();
    let step = asker.ask(Call::Step { device, image: image.clone(), wake, sound, record, frame })?;
    assert_eq!((step.number, &step.buffer), (act.number, &act.buffer), "a step is an act after a look");
    assert_eq!(step.values[0], look.values[0] + act.values[0], "a step spends what its two calls spend");
    Ok(())
}

/// One wrong input now and then: a look has no image to refuse, an act no frame.
fn refused_apart(asker: &mut Asker, chance: &mut Chance, device: Device, image: &Image) -> Result<(), Difference> {
    let (wake, sound) = options(chance);
    let wrong = chance.below(8);
    let record = if wrong & 1 != 0 { spoilt(chance, device) } else { record_of(&fresh_or_valid(chance, device)) };
    if wrong & 4 != 0 {
        let frame = if wrong & 2 != 0 { bad_of_any_length(chance, device) } else { idle(device).to_vec() };
        asker.ask(Call::Look { device, wake, sound, record, frame })?;
    } else {
        let image = if wrong & 2 != 0 { of_wrong_size(chance, device) } else { image.clone() };
        asker.ask(Call::Act { device, image, wake, sound, record })?;
    }
    Ok(())
}

pub fn options(chance: &mut Chance) -> (u8, u8) {
    let wake = match chance.below(3) {
        0 => chance.pick(&[0, 0xFF, 0x0F, 0xF0]),
        1 => 1 << chance.below(8),
        _ => chance.byte(),
    };
    (wake, chance.pick(&[0, 0, 0, 1, 2, 255]))
}

pub fn pins_after(chance: &mut Chance, device: Device, record: &[u8]) -> Pins {
    let of_the_device = |machine: &plain::Machine| machine.last_frame.is_valid(device);
    let last = machine_of(record).filter(of_the_device).map_or(Frame::idle(device), |machine| machine.last_frame);
    Pins::new(chance, device, last)
}

/// One run in so many has as many frames as a run takes, and as many again have more bytes than that.
const LONG_ONE_IN: usize = 1000;
const TOO_LONG_ONE_IN: usize = 500;

pub fn runs(asker: &mut Asker, chance: &mut Chance, codes: &Codes, wanted: u64) -> Result<(), Difference> {
    while asker.asked(codes.device, Kind::Run) < wanted {
        let image = whole(chance, codes);
        for _ in 0..16 {
            short_run(asker, chance, codes, &image)?;
        }
        if chance.one_in(LONG_ONE_IN / 16) {
            long_run(asker, chance, codes)?;
        }
        if chance.one_in(TOO_LONG_ONE_IN / 16) {
            too_long_run(asker, chance, codes.device, &image)?;
        }
    }
    asker.compare_queued()
}

fn short_run(asker: &mut Asker, chance: &mut Chance, codes: &Codes, image: &Image) -> Result<(), Difference> {
    let device = codes.device;
    let count = chance.pick(&[0, 1, 2, 5, 20, 60, 60, 150]);
    let mut record = record_of(&fresh_or_valid(chance, device));
    let image = perhaps_ending(chance, codes, image, &mut record);
    if chance.one_in(20) {
        record = spoilt(chance, device);
    }
    let mut frames = frames_after(chance, device, &record, count);
    if chance.one_in(20) && count > 0 {
        // Anywhere: also behind a stop, which a run does not reach.
        let place = device.frame_length() * chance.below(count);
        frames[place..place + device.frame_length()].copy_from_slice(&bad(chance, device));
    }
    if chance.one_in(20) {
        frames.extend_from_slice(&idle(device)[..1 + chance.below(device.frame_length() - 1)]);
    }
    let image = if chance.one_in(100) { of_wrong_size(chance, device) } else { image };
    let (wake, sound) = options(chance);
    asker.ask(Call::Run { device, image, wake, sound, record, frames })?;
    Ok(())
}

/// 65,536 frames on an image that goes on, now and then in sleep or hold.
fn long_run(asker: &mut Asker, chance: &mut Chance, codes: &Codes) -> Result<(), Difference> {
    let device = codes.device;
    let image = if chance.one_in(3) { vec![0; device.image_size()].into() } else { calm(chance, codes) };
    let mut machine = records::calm(chance, device);
    if chance.one_in(4) {
        records::fall_asleep(chance, &mut machine);
    }
    let record = record_of(&machine);
    let mut frames = frames_after(chance, device, &record, MOST_FRAMES);
    if chance.one_in(8) {
        let last = frames.len() - device.frame_length();
        frames[last..].copy_from_slice(&bad(chance, device));
    }
    let (wake, sound) = options(chance);
    asker.ask(Call::Run { device, image, wake, sound, record, frames })?;
    Ok(())
}

/// One byte, two or a frame over: 4, which 1 and 2 come before and 3 behind.
fn too_long_run(asker: &mut Asker, chance: &mut Chance, device: Device, image: &Image) -> Result<(), Difference> {
    let length = MOST_FRAMES * device.frame_length() + chance.pick(&[1, 2, 3, 4, 300]);
    let frames = idle(device).iter().chain(&bad(chance, device)).cycle().take(length).copied().collect();
    let record = if chance.one_in(4) { spoilt(chance, device) } else { record_of(&fresh_or_valid(chance, device)) };
    let image = if chance.one_in(4) { of_wrong_size(chance, device) } else { image.clone() };
    asker.ask(Call::Run { device, image, wake: 0xFF, sound: 0, record, frames })?;
    Ok(())
}

fn frames_after(chance: &mut Chance, device: Device, record: &[u8], count: usize) -> Vec<u8> {
    let mut pins = pins_after(chance, device, record);
    let mut frames = Vec::with_capacity(device.frame_length() * count);
    for _ in 0..count {
        frames.extend(pins.next(chance));
    }
    frames
}
