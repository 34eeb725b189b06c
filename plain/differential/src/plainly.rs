//! The plain emulator's answers to the calls.

use crate::calls::{Answer, Call, Paths, MOST_VALUES};
use crate::layout::{machine_of, record_of, RECORD_BYTES};
use plain::{goes_to, notation, numbers, Bound, Device, Insn, Machine, Options, Row, Why};

/// Where a row goes that is neither a branch nor a call.
const NOWHERE: u16 = 8192;

pub fn answer(call: &Call) -> Answer {
    let refusal = |number| refused(number, call);
    let device = call.device();
    let options = |wake: &u8, sound: &u8| Options { device, wake: *wake, sound: *sound != 0 };
    let answered = match call {
        Call::Fresh { record, .. } => fresh(device, record),
        Call::Reset { record, .. } => reset(device, record),
        Call::IsValid { record, .. } => is_valid(device, record),
        Call::Step { image, wake, sound, record, frame, .. } => step(image, options(wake, sound), record, frame),
        Call::Look { wake, sound, record, frame, .. } => look(options(wake, sound), record, frame),
        Call::Act { image, wake, sound, record, .. } => act(image, options(wake, sound), record),
        Call::Run { image, wake, sound, record, frames, .. } => run(image, options(wake, sound), record, frames),
        Call::Why { image, wake, sound, record, frame, .. } => why(image, options(wake, sound), record, frame),
        Call::Display { record, dots, .. } => display(device, record, dots),
        Call::Write { row, a, b } => write(*row, *a, *b),
        Call::Read { image, p3, address, .. } => read(device, image, *p3, *address),
        Call::Length { image, p3, address, .. } => length(device, image, *p3, *address),
        Call::Row { image, p3, address, .. } => row(device, image, *p3, *address),
        Call::Notation { image, p3, address, text, .. } => in_notation(device, image, *p3, *address, text),
        Call::Bound { image, p3, address, paths, .. } => return bound(device, image, *p3, *address, paths),
    };
    answered.unwrap_or_else(refusal)
}

/// "A refusal changes no buffer, and sets the numbers that come back to 0."
fn refused(number: u8, call: &Call) -> Answer {
    record_answer(call.changing().to_vec(), number, &[])
}

fn record_answer(buffer: Vec<u8>, number: u8, values: &[u32]) -> Answer {
    let mut all_values = [0; MOST_VALUES];
    all_values[..values.len()].copy_from_slice(values);
    Answer { number, values: all_values, buffer, others_kept: true }
}

/// The machine of a record, or one that every call refuses with 2 where the bytes are none.
fn machine_or_none_valid(record: &[u8]) -> Machine {
    machine_of(record).unwrap_or_else(|| {
        let mut none_valid = plain::fresh(Device::Em73862);
        none_valid.acc = 16;
        none_valid
    })
}

fn is_valid(device: Device, record: &[u8]) -> Result<Answer, u8> {
    if plain::is_valid(device, &machine_or_none_valid(record)) {
        Ok(record_answer(record.to_vec(), numbers::NONE, &[]))
    } else {
        Err(numbers::RECORD_RANGE)
    }
}

fn fresh(device: Device, record: &[u8]) -> Result<Answer, u8> {
    if record.len() != RECORD_BYTES {
        return Err(numbers::RECORD_RANGE);
    }
    Ok(record_answer(record_of(&plain::fresh(device)), numbers::NONE, &[]))
}

fn reset(device: Device, record: &[u8]) -> Result<Answer, u8> {
    let machine = plain::reset(device, &machine_or_none_valid(record))?;
    Ok(record_answer(record_of(&machine), numbers::NONE, &[]))
}

fn step(image: &[u8], options: Options, record: &[u8], frame: &[u8]) -> Result<Answer, u8> {
    Ok(step_answer(plain::step(image, options, &machine_or_none_valid(record), frame)?))
}

fn look(options: Options, record: &[u8], frame: &[u8]) -> Result<Answer, u8> {
    Ok(step_answer(plain::look(options, &machine_or_none_valid(record), frame)?))
}

fn act(image: &[u8], options: Options, record: &[u8]) -> Result<Answer, u8> {
    Ok(step_answer(plain::act(image, options, &machine_or_none_valid(record))?))
}

fn step_answer(stepped: plain::Stepped) -> Answer {
    record_answer(record_of(&stepped.machine), stepped.stop, &[stepped.cycles])
}

fn run(image: &[u8], options: Options, record: &[u8], frames: &[u8]) -> Result<Answer, u8> {
    // "A last frame cut short is no frame": the plain run sees its characters and refuses them.
    let ran = plain::run(image, options, &machine_or_none_valid(record), frames)?;
    let cycles = u32::try_from(ran.cycles).expect("65,536 steps spend fewer than 2^32 cycles");
    Ok(record_answer(record_of(&ran.machine), ran.stop, &[ran.steps, cycles]))
}

/// Which of the six holds, the source that is accepted, and the set of sources, as the header numbers them.
fn why(image: &[u8], options: Options, record: &[u8], frame: &[u8]) -> Result<Answer, u8> {
    let values = match plain::why(image, options, &machine_or_none_valid(record), frame)? {
        Why::Waiting => [1, 0, 0],
        Why::EiClear => [2, 0, 0],
        Why::NothingLatched => [3, 0, 0],
        Why::AllMasked { latched } => [4, 0, latched],
        Why::LevelRefuses { due } => [5, 0, due],
        Why::Accepted { source, waiting } => [6, source, waiting],
    };
    Ok(record_answer(record.to_vec(), numbers::NONE, &values.map(u32::from)))
}

fn display(device: Device, record: &[u8], dots: &[u8]) -> Result<Answer, u8> {
    let mut dots = dots.to_vec();
    plain::display(device, &machine_or_none_valid(record), &mut dots)?;
    Ok(record_answer(dots, numbers::NONE, &[]))
}

fn read(device: Device, image: &[u8], p3: u32, address: u32) -> Result<Answer, u8> {
    let insn = plain::read(device, image, p3, address as usize)?;
    let (a, b) = slots_of(insn);
    Ok(record_answer(Vec::new(), numbers::NONE, &[insn.row as u32, a as u32, b as u32]))
}

/// The bytes and cycles of a row that was read.
fn size_of(insn: Insn) -> [u32; 2] {
    let row = Row::from_number(insn.row).expect("what is read is a row");
    [row.bytes() as u32, row.cycles()]
}

fn length(device: Device, image: &[u8], p3: u32, address: u32) -> Result<Answer, u8> {
    let insn = plain::read(device, image, p3, address as usize)?;
    Ok(record_answer(Vec::new(), numbers::NONE, &size_of(insn)))
}

fn row(device: Device, image: &[u8], p3: u32, address: u32) -> Result<Answer, u8> {
    let insn = plain::read(device, image, p3, address as usize)?;
    let goes = goes_to(insn, address as u16).unwrap_or(NOWHERE);
    let [bytes, cycles] = size_of(insn);
    let values = [insn.row as u32, insn.a as u32, insn.b as u32, goes as u32, bytes, cycles];
    Ok(record_answer(Vec::new(), numbers::NONE, &values))
}

fn in_notation(device: Device, image: &[u8], p3: u32, address: u32, text: &[u8]) -> Result<Answer, u8> {
    let insn = plain::read(device, image, p3, address as usize)?;
    let words = notation(insn, address as u16);
    let mut text = text.to_vec();
    if let Some(start) = text.get_mut(..words.len()) {
        start.copy_from_slice(words.as_bytes());
    }
    Ok(record_answer(text, numbers::NONE, &[words.len() as u32]))
}

fn write(row: u8, a: u16, b: u8) -> Result<Answer, u8> {
    let code = plain::write(insn_of(row, a, b))?;
    let mut values = [code.len() as u32, 0, 0, 0];
    for (value, byte) in values[1..].iter_mut().zip(&code) {
        *value = *byte as u32;
    }
    Ok(record_answer(Vec::new(), numbers::NONE, &values))
}

/// The value is N, or what a refusal tells; the depth comes with an N alone.
fn bound(device: Device, image: &[u8], p3: u32, address: u32, paths: &Paths) -> Answer {
    let mut buffers = paths.bytes().to_vec();
    let (path, deep) = paths.apart(&mut buffers);
    let found = plain::bound(device, image, p3, address, path, deep);
    let values = match found {
        Bound::ImageSize | Bound::P3 | Bound::AddressOver8191 | Bound::TooManyCycles => [0, 0],
        Bound::Recursion(lowest) | Bound::Excluded(lowest) | Bound::Repetition(lowest) => [lowest as u32, 0],
        Bound::PathBuffer(bytes) => [bytes as u32, 0],
        Bound::Cycles { most, depth, .. } => [most, depth],
    };
    record_answer(buffers, found.number(), &values)
}

/// The header has operands by their letter: "a is x, k, the address, the bit, r or n; b is y or p".
fn is_in_b(letter: u8) -> bool {
    matches!(letter, b'y' | b'p')
}

/// The operand letters of a row in its mnemonic's order; none where there is no such row.
fn letters_of(row: u8) -> &'static [u8] {
    Row::from_number(row).map_or(&[], |row| row.sheet().operands.as_bytes())
}

pub fn slots_of(insn: Insn) -> (u16, u8) {
    let (mut a, mut b) = (0, 0);
    for (&letter, operand) in letters_of(insn.row).iter().zip([insn.a, insn.b]) {
        if is_in_b(letter) {
            b = operand as u8;
        } else {
            a = operand;
        }
    }
    (a, b)
}

/// The instruction in the mnemonic's order. A slot that the row does not have comes last, where the plain writer sees
/// and refuses it.
pub fn insn_of(row: u8, a: u16, b: u8) -> Insn {
    let b = b as u16;
    let (first, second) = match letters_of(row).first() {
        Some(&letter) if is_in_b(letter) => (b, a),
        _ => (a, b),
    };
    Insn { row, a: first, b: second }
}

#[cfg(test)]
mod tests {
    use super::*;
    use plain::SHEET;

    #[test]
    fn operands_go_to_their_slots_and_back() {
        let sep = Row::Sep.number();
        assert_eq!(insn_of(sep, 3, 9), Insn { row: sep, a: 9, b: 3 });
        assert_eq!(slots_of(Insn { row: sep, a: 9, b: 3 }), (3, 9));
        let std = Row::Std.number();
        assert_eq!(slots_of(Insn { row: std, a: 7, b: 3 }), (7, 3));
        let outa = Row::Outa.number();
        assert_eq!(slots_of(Insn { row: outa, a: 28, b: 0 }), (0, 28));
        assert_eq!(write(outa, 1, 28), Err(11));
        for sheet in &SHEET {
            let insn = Insn { row: sheet.row.number(), a: 1, b: 2 };
            let (a, b) = slots_of(insn);
            if sheet.operands.len() == 2 {
                assert_eq!(insn_of(insn.row, a, b), insn);
            }
        }
    }
}
