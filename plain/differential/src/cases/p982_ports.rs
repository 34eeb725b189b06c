//! Request Q-6: "P4 has four pins, so its frame digit is 0 to 15 and is read whole; bit 0 reads 1 with SOUND enabled. Ports 3, 5, 6 and 17 are
//! writable; the last three only keep their value", and "34 also when P3 bits 1..0 would become 3". Speech is "raised by a fourth frame digit
//! of 1".

use super::record::{fresh_p982, with, with_last_frame, HOLD, RUNNING, SLEEP};
use super::{Case, Step, ALL_WAKE, NOP, SOUND_OFF, SOUND_ON};
use plain::numbers::{ABSENT_PORT, RESERVED_SETTING};
use plain::Device;

type Field = (&'static str, u32);
type Fields = &'static [Field];

/// A name, what is set before, a code of two bytes, and the port that it writes.
type Write = (&'static str, Fields, [u8; 2], Field);

/// A name, the code, LR, what is set before, and the port that it changes where there is one.
type ByLr = (&'static str, u8, u32, Fields, Option<Field>);

/// OUTM takes RAM 000h.
const WRITES: [Write; 16] = [
    ("OUTA P3", &[("ACC", 14)], [0x6F, 0x03], ("P3", 14)),
    ("OUTA P5", &[("ACC", 10)], [0x6F, 0x05], ("P5", 10)),
    ("OUTA P6", &[("ACC", 15)], [0x6F, 0x06], ("P6", 15)),
    ("OUTA P17", &[("ACC", 3)], [0x6F, 0x11], ("P17", 3)),
    ("OUTM P3", &[("RAM 000h", 9)], [0x6F, 0x83], ("P3", 9)),
    ("OUTM P5", &[("RAM 000h", 3)], [0x6F, 0x85], ("P5", 3)),
    ("OUTM P6", &[("RAM 000h", 7)], [0x6F, 0x86], ("P6", 7)),
    ("OUTM P17", &[("RAM 000h", 0)], [0x6F, 0x91], ("P17", 0)),
    ("OUT #2,P3", &[], [0x4A, 0x23], ("P3", 2)),
    ("OUT #15,P5", &[], [0x4A, 0xF5], ("P5", 15)),
    ("OUT #11,P6", &[], [0x4A, 0xB6], ("P6", 11)),
    ("SEP P3,1", &[("P3", 4)], [0x6D, 0x53], ("P3", 6)),
    ("CLP P3,0", &[("P3", 13)], [0x6D, 0xC3], ("P3", 12)),
    ("SEP P5,3", &[("P5", 1)], [0x6D, 0x75], ("P5", 9)),
    ("CLP P6,2", &[("P6", 15)], [0x6D, 0xE6], ("P6", 11)),
    ("OUTA P4", &[("ACC", 6)], [0x6F, 0x04], ("P4", 6)),
];

/// CLPL and SEPL.
const BY_LR: [ByLr; 5] = [
    ("SEPL P5,2", 0x62, 6, &[], Some(("P5", 4))),
    ("SEPL P6,3", 0x62, 11, &[], Some(("P6", 8))),
    ("CLPL P5,0", 0x60, 4, &[("P5", 15)], Some(("P5", 14))),
    ("SEPL P7,0", 0x62, 12, &[], None),
    ("CLPL P7,3", 0x60, 15, &[], None),
];

/// What stops, and with which number.
const STOPS: [(&str, Fields, &[u8], u8); 15] = [
    ("OUTA P3", &[("ACC", 3)], &[0x6F, 0x03], RESERVED_SETTING),
    ("OUTA P3", &[("ACC", 15), ("P3", 14)], &[0x6F, 0x03], RESERVED_SETTING),
    ("OUTM P3", &[("RAM 000h", 7)], &[0x6F, 0x83], RESERVED_SETTING),
    ("OUT #3,P3", &[], &[0x4A, 0x33], RESERVED_SETTING),
    ("OUT #11,P3", &[("P3", 2)], &[0x4A, 0xB3], RESERVED_SETTING),
    ("SEP P3,1", &[("P3", 1)], &[0x6D, 0x53], RESERVED_SETTING),
    ("SEP P3,0", &[("P3", 14)], &[0x6D, 0x43], RESERVED_SETTING),
    ("INA P3", &[], &[0x6F, 0x43], ABSENT_PORT),
    ("INA P5", &[], &[0x6F, 0x45], ABSENT_PORT),
    ("INA P6", &[], &[0x6F, 0x46], ABSENT_PORT),
    ("TTP P3,0", &[], &[0x6D, 0x83], ABSENT_PORT),
    ("TFP P6,3", &[], &[0x6D, 0x36], ABSENT_PORT),
    ("TFPL P5,0", &[("LR", 4)], &[0x61], ABSENT_PORT),
    ("OUTA P7", &[], &[0x6F, 0x07], ABSENT_PORT),
    ("OUTA P18", &[], &[0x6F, 0x12], ABSENT_PORT),
];

/// SOUND, the frame, and what ACC becomes by INA P4.
const READ: [(u8, &[u8; 4], u32); 7] = [
    (SOUND_OFF, b"FF00", 0),
    (SOUND_OFF, b"FF20", 2),
    (SOUND_OFF, b"FFE0", 14),
    (SOUND_OFF, b"FFF0", 15),
    (SOUND_ON, b"FF00", 1),
    (SOUND_ON, b"FF60", 7),
    (SOUND_ON, b"FF90", 9),
];

/// The last frame, the frame, and the latches after a NOP. P8.0 falls in some: "INT1 is gone".
const SPEECH: [(&[u8; 4], &[u8; 4], u32); 6] = [
    (b"FFF0", b"FFF1", 0b00_0001),
    (b"FFF1", b"FFF1", 0b00_0001),
    (b"FFF1", b"FFF0", 0),
    (b"FFF0", b"FEF0", 0),
    (b"FFF0", b"FAF0", 0b10_0000),
    (b"FFF0", b"FAF1", 0b10_0001),
];

/// The mode and P16, the frame, and whether it wakes, with how many cycles. The digit is nothing to a sleeper, and P8.0 wakes.
const ASLEEP: [(u32, u32, &[u8; 4], Option<u32>); 4] = [
    (SLEEP, 4, b"FFF1", None),
    (HOLD, 7, b"FFF1", None),
    (SLEEP, 5, b"FEF1", Some(2_048)),
    (HOLD, 7, b"FEF0", Some(0)),
];

pub fn cases() -> Vec<Case> {
    [writes(), by_lr(), stops(), reads(), speech(), asleep(), accepted()].into_iter().flatten().collect()
}

fn step<'a>(code: &'a [u8], before: Vec<u8>, frame: &'a [u8]) -> Step<'a> {
    Step { device: Device::Em73P982, code, wake: ALL_WAKE, sound: SOUND_OFF, before, frame }
}

fn writes() -> Vec<Case> {
    let case = |(name, set, code, port): &Write| {
        let changes = [("PC", 2), ("time base", 16), *port];
        step(code, with(&fresh_p982(), set), b"FFF0").changes(name, 2, &changes)
    };
    WRITES.iter().map(case).collect()
}

fn by_lr() -> Vec<Case> {
    let case = |(name, code, lr, set, port): &ByLr| {
        let before = with(&with(&fresh_p982(), set), &[("LR", *lr)]);
        let code = [*code];
        let step = step(&code, before, b"FFF0");
        match port {
            Some(port) => step.changes(name, 2, &[("PC", 1), ("time base", 16), *port]),
            None => step.stops(name, ABSENT_PORT),
        }
    };
    BY_LR.iter().map(case).collect()
}

fn stops() -> Vec<Case> {
    let case = |(name, set, code, number): &(&str, Fields, &[u8], u8)| {
        step(code, with(&fresh_p982(), set), b"EFF0").stops(&format!("{name}, {set:?}"), *number)
    };
    STOPS.iter().map(case).collect()
}

fn reads() -> Vec<Case> {
    let case = |(sound, frame, acc): (u8, &[u8; 4], u32)| {
        let before = with(&fresh_p982(), &[("P4", 5), ("ACC", 4)]);
        let step = Step { sound, ..step(&[0x6F, 0x44], before, frame) };
        let (zf, sf) = ((acc == 0) as u32, (acc != 0) as u32);
        let changes = [("PC", 2), ("time base", 16), ("P4", 15), ("ACC", acc), ("ZF", zf), ("SF", sf)];
        step.changes(&format!("INA P4, SOUND {sound}, frame {}", frame.escape_ascii()), 2, &changes)
    };
    READ.into_iter().map(case).collect()
}

fn speech() -> Vec<Case> {
    let case = |(last, frame, il): (&[u8; 4], &[u8; 4], u32)| {
        let step = step(&[NOP], with_last_frame(&fresh_p982(), last), frame);
        let name = format!("frame {} after {}", frame.escape_ascii(), last.escape_ascii());
        step.changes(&name, 1, &[("PC", 1), ("time base", 8), ("IL", il)])
    };
    SPEECH.into_iter().map(case).collect()
}

fn asleep() -> Vec<Case> {
    let case = |(mode, p16, frame, wakes): (u32, u32, &[u8; 4], Option<u32>)| {
        let step = step(&[NOP], with(&fresh_p982(), &[("mode", mode), ("P16", p16)]), frame);
        let name = format!("mode {mode}, P16 {p16}, frame {}", frame.escape_ascii());
        match wakes {
            Some(cycles) => step.changes(&name, cycles, &[("mode", RUNNING)]),
            None => step.changes(&name, 0, &[]),
        }
    };
    ASLEEP.into_iter().map(case).collect()
}

/// "the speech ending interrupt takes IL0 and 00Ch". PC 1234h and SF go to level 4.
fn accepted() -> Vec<Case> {
    let before = with(&fresh_p982(), &[("EI", 1), ("mask", 1), ("SP", 5), ("PC", 0x1234)]);
    let pushed = [("RAM 0D0h", 4), ("RAM 0D1h", 3), ("RAM 0D2h", 2), ("RAM 0D3h", 9)];
    let others = [("EI", 0), ("SP", 4), ("PC", 0x00C), ("time base", 16)];
    vec![step(&[NOP], before, b"FFF1").changes("speech is accepted", 2, &[&pushed[..], &others].concat())]
}
