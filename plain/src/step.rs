//! One step, as document 01's "One step" numbers its phases.

use crate::code::fetch;
use crate::device::Device;
use crate::due::{due_number, due_source, IL0, IL1, IL2, IL3, IL5};
use crate::execute::execute;
use crate::frame::Frame;
use crate::machine::{is_valid, Machine, Mode, Options, TIME_BASE_SIZE};
use crate::numbers;
use crate::rom::{whole_image, Image};
use crate::surroundings::Surroundings;

const ACCEPTANCE_CYCLES: u32 = 2;

/// P16 bit 3.
const LEVEL_RELEASE: u8 = 0b1000;

/// The most frames that a run takes.
pub const MOST_FRAMES: usize = 65_536;

/// What a step gives.
#[derive(Clone, Debug, PartialEq, Eq)]
pub struct Stepped {
    pub machine: Machine,
    pub cycles: u32,
    /// 0 if none.
    pub stop: u8,
}

/// What a run gives.
#[derive(Clone, Debug, PartialEq, Eq)]
pub struct Ran {
    pub machine: Machine,
    pub steps: u32,
    pub cycles: u64,
    /// 0 if none.
    pub stop: u8,
}

/// One step, both its calls. Refuses with 1, 2 and 3.
pub fn step(image: &[u8], options: Options, machine: &Machine, frame: &[u8]) -> Result<Stepped, u8> {
    let image = whole_image(options.device, image)?;
    let mut machine = valid(options.device, machine)?;
    let frame = Frame::parse(options.device, frame).ok_or(numbers::NO_FRAME)?;
    let advanced = advance(&mut machine, image, options, frame);
    Ok(stepped(machine, advanced))
}

/// The first call of a step (request Q-4): "one call takes the frame, updates edges, event counts and waking". Refuses
/// with 2 and 3.
pub fn look(options: Options, machine: &Machine, frame: &[u8]) -> Result<Stepped, u8> {
    let mut machine = valid(options.device, machine)?;
    let frame = Frame::parse(options.device, frame).ok_or(numbers::NO_FRAME)?;
    let cycles = take_frame(&mut machine, options, frame);
    Ok(stepped(machine, Ok(cycles)))
}

/// The second: "a second accepts or executes and passes time". Refuses with 1 and 2.
pub fn act(image: &[u8], options: Options, machine: &Machine) -> Result<Stepped, u8> {
    let image = whole_image(options.device, image)?;
    let mut machine = valid(options.device, machine)?;
    let acted = take_turn(&mut machine, image, options);
    Ok(stepped(machine, acted))
}

fn valid(device: Device, machine: &Machine) -> Result<Machine, u8> {
    if is_valid(device, machine) {
        Ok(machine.clone())
    } else {
        Err(numbers::RECORD_RANGE)
    }
}

fn stepped(machine: Machine, cycles: Result<u32, u8>) -> Stepped {
    match cycles {
        Ok(cycles) => Stepped { machine, cycles, stop: numbers::NONE },
        Err(stop) => Stepped { machine, cycles: 0, stop },
    }
}

/// "A run checks all frames first, makes one step a frame, and ends early at a stop." Refuses
/// with 1, 2, 4 and 3, in this order.
pub fn run(image: &[u8], options: Options, machine: &Machine, frames: &[u8]) -> Result<Ran, u8> {
    let image = whole_image(options.device, image)?;
    let machine = valid(options.device, machine)?;
    let length = options.device.frame_length();
    if frames.len() > MOST_FRAMES * length {
        return Err(numbers::TOO_MANY_FRAMES);
    }
    let parse = |text| Frame::parse(options.device, text);
    if frames.chunks(length).any(|text| parse(text).is_none()) {
        return Err(numbers::NO_FRAME);
    }
    let mut ran = Ran { machine, steps: 0, cycles: 0, stop: numbers::NONE };
    for frame in frames.chunks(length).filter_map(parse) {
        match advance(&mut ran.machine, image, options, frame) {
            Ok(cycles) => {
                ran.steps += 1;
                ran.cycles += cycles as u64;
            }
            Err(stop) => {
                ran.stop = stop;
                break;
            }
        }
    }
    Ok(ran)
}

/// Makes one step and gives its cycles, or the stop. "A stop now leaves the record as the first call left it."
fn advance(m: &mut Machine, image: Image, options: Options, frame: Frame) -> Result<u32, u8> {
    let looking = take_frame(m, options, frame);
    let acting = take_turn(m, image, options)?;
    Ok(looking + acting)
}

/// "In sleep or hold the first call does the whole step and gives its cycles, and leaves a mark .. a running first call
/// clears it too."
fn take_frame(m: &mut Machine, options: Options, frame: Frame) -> u32 {
    m.mark = m.mode != Mode::Running;
    let cycles = match m.mode {
        Mode::Running => {
            look_for_edges(m, options.device, frame);
            0
        }
        Mode::Sleep | Mode::Hold => look_for_wake(m, options, frame),
    };
    m.last_frame = frame;
    m.due = due_number(m.il, m.mask);
    cycles
}

/// Where there is a mark it "does nothing, spends 0 and clears the mark. In sleep or hold the second always does nothing
/// and spends 0."
fn take_turn(m: &mut Machine, image: Image, options: Options) -> Result<u32, u8> {
    if m.mark || m.mode != Mode::Running {
        m.mark = false;
        return Ok(0);
    }
    let around = Surroundings { rom: image.through(m.ports.p3), options, frame: m.last_frame };
    let cycles = accept_or_execute(m, &around)?;
    // "Phase 3 is left out" where the row entered sleep or hold.
    if m.mode == Mode::Running {
        pass_time(m, around.frame, cycles);
    }
    m.due = due_number(m.il, m.mask);
    Ok(cycles)
}

/// Phase 1: "A falling edge on P8.2 sets IL5, on P8.0 sets IL0. A rising edge on P8.3 (P8.1) adds
/// one to TA (TB) in event mode." On the EM73P982 IL0 is "raised by a fourth frame digit of 1", whatever the last frame had.
fn look_for_edges(m: &mut Machine, device: Device, frame: Frame) {
    let falling = m.last_frame.p8 & !frame.p8;
    let rising = !m.last_frame.p8 & frame.p8;
    if falling & 0b0100 != 0 {
        m.il |= IL5;
    }
    let raises_il0 = match device {
        Device::Em73862 => falling & 0b0001 != 0,
        Device::Em73P982 => frame.speech == 1,
    };
    if raises_il0 {
        m.il |= IL0;
    }
    if rising & 0b1000 != 0 && timer_mode(m.ports.p28) == TimerMode::Event {
        count_ta(m);
    }
    if rising & 0b0010 != 0 && timer_mode(m.ports.p29) == TimerMode::Event {
        count_tb(m);
    }
}

/// Phase 2: "If EI is set" and a source is due, accepts it, or else executes one instruction. Gives the cycles.
fn accept_or_execute(m: &mut Machine, around: &Surroundings) -> Result<u32, u8> {
    if let Some((latch, entry)) = due_source(m.il, m.mask).filter(|_| m.ei) {
        m.accept(latch, entry)?;
        return Ok(ACCEPTANCE_CYCLES);
    }
    let decoded = fetch(around.rom, m.pc)?;
    execute(m, around, decoded)?;
    Ok(decoded.row.cycles())
}

/// Phase 3: "For each cycle the time base gains 8, modulo 2^22."
fn pass_time(m: &mut Machine, frame: Frame, cycles: u32) {
    for _ in 0..cycles {
        m.time_base = (m.time_base + 8) % TIME_BASE_SIZE;
        if timer_counts(m.ports.p28, frame.p8 & 0b1000 != 0, m.time_base) {
            count_ta(m);
        }
        if timer_counts(m.ports.p29, frame.p8 & 0b0010 != 0, m.time_base) {
            count_tb(m);
        }
        if let Some(exponent) = time_base_exponent(m.ports.p25) {
            if is_multiple(m.time_base, exponent) {
                m.il |= IL1;
            }
        }
    }
}

#[derive(PartialEq, Eq)]
enum TimerMode {
    Stop,
    Event,
    Timer,
    PulseWidth,
}

/// "Bits 3..2 are the mode: 0 stop, 1 event."
fn timer_mode(setting: u8) -> TimerMode {
    match setting >> 2 {
        0 => TimerMode::Stop,
        1 => TimerMode::Event,
        2 => TimerMode::Timer,
        _ => TimerMode::PulseWidth,
    }
}

/// "At multiples of 2^10, 2^14, 2^18 or 2^22 (P28, P29 bits 1..0 = 0 to 3) a timer in mode 2
/// counts, and in mode 3 if its pin is 1."
fn timer_counts(setting: u8, pin: bool, time_base: u32) -> bool {
    let enabled = match timer_mode(setting) {
        TimerMode::Stop | TimerMode::Event => false,
        TimerMode::Timer => true,
        TimerMode::PulseWidth => pin,
    };
    enabled && is_multiple(time_base, 10 + 4 * (setting & 3) as u32)
}

/// "TBI sets IL1 at multiples of 2^k; P25 = 4,5,6,7,12,13,14,15 gives
/// k = 10,11,12,13,9,8,15,17; 0 to 3 is off."
fn time_base_exponent(p25: u8) -> Option<u32> {
    match p25 {
        4 => Some(10),
        5 => Some(11),
        6 => Some(12),
        7 => Some(13),
        12 => Some(9),
        13 => Some(8),
        14 => Some(15),
        15 => Some(17),
        _ => None,
    }
}

fn is_multiple(time_base: u32, exponent: u32) -> bool {
    time_base % (1 << exponent) == 0
}

/// "Passing 4095 to 0 sets IL3 (TA) or IL2 (TB)."
fn count_ta(m: &mut Machine) {
    m.ta = (m.ta + 1) % 4096;
    if m.ta == 0 {
        m.il |= IL3;
    }
}

fn count_tb(m: &mut Machine) {
    m.tb = (m.tb + 1) % 4096;
    if m.tb == 0 {
        m.il |= IL2;
    }
}

/// "In sleep or hold a step only looks for a falling edge on an enabled wake pin. None: 0 cycles.
/// One: running again." With P16 bit 3 set it "wakes when an enabled wake pin reads 0 in the
/// frame, edge or none". Gives the cycles.
fn look_for_wake(m: &mut Machine, options: Options, frame: Frame) -> u32 {
    let low = !frame.wake_pins();
    let waking = if m.ports.p16 & LEVEL_RELEASE != 0 { low } else { m.last_frame.wake_pins() & low };
    if waking & options.wake == 0 {
        return 0;
    }
    m.mode = Mode::Running;
    wake_cycles(m.ports.p16)
}

/// "0 cycles for hold, for sleep 32,768, 2,048 or 8,192 (bits 1..0 = 0, 1, 2)."
fn wake_cycles(p16: u8) -> u32 {
    match p16 & 3 {
        0 => 32_768,
        1 => 2_048,
        2 => 8_192,
        _ => 0,
    }
}
