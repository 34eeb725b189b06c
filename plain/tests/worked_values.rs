//! Document 01's worked values, and facts about calls.

use plain::*;

const DEVICE: Device = Device::Em73862;
const OPTIONS: Options = Options { device: DEVICE, wake: 0xFF, sound: false };

fn image_of(code: &[u8]) -> Vec<u8> {
    let mut image = vec![0; IMAGE_SIZE];
    image[..code.len()].copy_from_slice(code);
    image
}

/// The record and stop after one instruction.
fn after(code: &[u8], machine: &Machine) -> (Machine, u8) {
    let stepped = step(&image_of(code), OPTIONS, machine, b"FF1").unwrap();
    (stepped.machine, stepped.stop)
}

#[test]
fn sums_and_differences() {
    assert_eq!(add(3, 4, 0), (7, false));
    assert_eq!(add(7, 15, 0), (6, true));
    assert_eq!(add(0, 0, 0), (0, false));
    assert_eq!(add(8, 8, 0), (0, true));
    assert_eq!(subtract(8, 4, 0), (4, true));
    assert_eq!(subtract(9, 9, 0), (0, true));
    assert_eq!(subtract(7, 15, 0), (8, false));
    assert_eq!(subtract(0, 15, 1), (0, false));
}

#[test]
fn rlca_on_8() {
    let (m, stop) = after(&[0x50], &Machine { acc: 8, ..fresh(DEVICE) });
    assert_eq!((m.acc, m.cf, m.zf, m.sf, stop), (0, true, true, false, 0));
}

#[test]
fn sbcam() {
    let mut before = Machine { acc: 3, ..fresh(DEVICE) };
    before.ram[0] = 5;
    let (m, stop) = after(&[0x72], &before);
    assert_eq!((m.acc, m.cf, m.sf, stop), (1, true, true, 0));
}

#[test]
fn short_calls() {
    for (n, target) in [(0u8, 0x86), (1, 0x0E), (15, 0x7E)] {
        let (m, stop) = after(&[0xE0 + n], &Machine { sp: 13, ..fresh(DEVICE) });
        assert_eq!((m.pc, m.sp, stop), (target, 12, 0));
    }
}

#[test]
fn stack_levels() {
    for (sp, call_stop, return_stop) in [(0, 32, 0), (1, 0, 0), (12, 0, 0), (13, 0, 32), (14, 32, 32)] {
        let before = Machine { sp, ..fresh(DEVICE) };
        assert_eq!(after(&[0xE1], &before).1, call_stop);
        assert_eq!(after(&[0x4F], &before).1, return_stop);
        assert_eq!(after(&[0x4D], &before).1, return_stop);
    }
}

#[test]
fn a_call_keeps_the_flag_bits_of_its_nibble_and_ret_restores_no_flag() {
    let mut before = Machine { sp: 1, pc: 0x1234, cf: true, ..fresh(DEVICE) };
    before.ram[0xC3] = 0b1100;
    let mut image = image_of(&[]);
    image[0x1234] = 0xE1;
    image[0x0E] = 0x4F;
    let called = step(&image, OPTIONS, &before, b"FF1").unwrap().machine;
    assert_eq!(called.ram[0xC0..0xC4], [5, 3, 2, 0b1101]);
    let returned = step(&image, OPTIONS, &called, b"FF1").unwrap().machine;
    assert_eq!((returned.pc, returned.sp), (0x1235, 1));
    assert_eq!((returned.cf, returned.zf, returned.sf), (true, false, true));
}

#[test]
fn the_data_pointer_reads_the_upper_half() {
    let mut image = image_of(&[0x65, 0x67]);
    image[0x1777] = 0x56;
    let before = Machine { dp: 0x777, ..fresh(DEVICE) };
    let ran = run(&image, OPTIONS, &before, b"FF1").unwrap();
    assert_eq!((ran.machine.acc, ran.machine.dp), (6, 0x777));
    let ran = run(&image, OPTIONS, &before, b"FF1FF1").unwrap();
    assert_eq!((ran.machine.acc, ran.machine.dp), (5, 0x778));
}

#[test]
fn the_last_nibbles_by_hl() {
    for (p9, hr, lr, stop) in [(0, 15, 3, 0), (0, 15, 4, 31), (8, 7, 15, 0), (8, 8, 0, 31)] {
        let mut before = Machine { hr, lr, ..fresh(DEVICE) };
        before.ports.p9 = p9;
        assert_eq!(after(&[0x5A], &before).1, stop);
    }
}

#[test]
fn dots_17_and_19() {
    let mut machine = fresh(DEVICE);
    machine.ports.p27 = 12;
    machine.ram[0x24] = 10;
    let mut buffer = [0xEE; 42];
    assert_eq!(display(DEVICE, &machine, &mut buffer), Ok(()));
    let lit: Vec<usize> = (0..320).filter(|dot| buffer[dot / 8] >> (dot % 8) & 1 == 1).collect();
    assert_eq!(lit, [17, 19]);
    assert_eq!(buffer[40..], [0xEE, 0xEE]);
    machine.ports.p27 = 7;
    assert_eq!(display(DEVICE, &machine, &mut buffer), Ok(()));
    assert_eq!(buffer[..40], [0; 40]);
    assert_eq!(display(DEVICE, &machine, &mut buffer[..39]), Err(5));
    machine.acc = 16;
    assert_eq!(display(DEVICE, &machine, &mut buffer[..39]), Err(2));
}

#[test]
fn the_listing_of_document_01() {
    let image = image_of(&[0xD0, 0xD3, 0x6E, 0x55, 0x6E, 0x5D, 0x6E, 0x5E, 0x08]);
    let expected =
        [(1, 0, 0b011, 1), (2, 3, 0b001, 1), (4, 8, 0b001, 2), (6, 5, 0b000, 2), (8, 3, 0b000, 2), (9, 3, 0b001, 1)];
    let mut machine = fresh(DEVICE);
    for (pc, acc, flags, cycles) in expected {
        let stepped = step(&image, OPTIONS, &machine, b"FF1").unwrap();
        machine = stepped.machine;
        let shown = (machine.cf as u8) << 2 | (machine.zf as u8) << 1 | machine.sf as u8;
        assert_eq!((machine.pc, machine.acc, shown), (pc, acc, flags));
        assert_eq!((stepped.cycles, stepped.stop), (cycles, 0));
    }
}

#[test]
fn refusals_in_the_tables_order() {
    let bad = Machine { acc: 16, ..fresh(DEVICE) };
    assert_eq!(step(&[0; 8191], OPTIONS, &bad, b"bad"), Err(1));
    assert_eq!(step(&[0; 8192], OPTIONS, &bad, b"bad"), Err(2));
    assert_eq!(step(&[0; 8192], OPTIONS, &fresh(DEVICE), b"bad"), Err(3));
    assert_eq!(step(&[0; 8192], OPTIONS, &fresh(DEVICE), b"FF1F"), Err(3));
    let too_many = vec![b'!'; 196_609];
    assert_eq!(run(&[0; 8191], OPTIONS, &bad, &too_many), Err(1));
    assert_eq!(run(&[0; 8192], OPTIONS, &bad, &too_many), Err(2));
    assert_eq!(run(&[0; 8192], OPTIONS, &fresh(DEVICE), &too_many), Err(4));
    assert_eq!(run(&[0; 8192], OPTIONS, &fresh(DEVICE), &too_many[1..]), Err(3));
    assert_eq!(run(&[0; 8192], OPTIONS, &fresh(DEVICE), b"FF1FF"), Err(3));
    // A bad frame after a step that would stop.
    assert_eq!(run(&[0x54; 8192], OPTIONS, &fresh(DEVICE), b"FF1FF2"), Err(3));
    let idle = run(&[0; 8192], OPTIONS, &fresh(DEVICE), b"").unwrap();
    assert_eq!(idle, Ran { machine: fresh(DEVICE), steps: 0, cycles: 0, stop: 0 });
}

#[test]
fn sleep_and_waking() {
    let image = image_of(&[0xD4, 0x6F, 0x10, 0x56]);
    let asleep = run(&image, OPTIONS, &fresh(DEVICE), b"FF1FF1").unwrap();
    assert_eq!((asleep.machine.mode, asleep.machine.time_base, asleep.cycles), (Mode::Sleep, 0, 3));
    let no_edge = step(&image, OPTIONS, &asleep.machine, b"FF0").unwrap();
    assert_eq!((no_edge.machine.mode, no_edge.cycles), (Mode::Sleep, 0));
    let masked = step(&image, Options { wake: 0xEF, ..OPTIONS }, &asleep.machine, b"FE1").unwrap();
    assert_eq!((masked.machine.mode, masked.cycles), (Mode::Sleep, 0));
    let awake = step(&image, OPTIONS, &asleep.machine, b"FE1").unwrap();
    assert_eq!((awake.machine.mode, awake.cycles, awake.machine.il), (Mode::Running, 32_768, 0));
}

/// A small generator of numbers, so that a failure can be made again.
struct Numbers(u64);

impl Numbers {
    fn below(&mut self, limit: u64) -> u64 {
        self.0 ^= self.0 << 13;
        self.0 ^= self.0 >> 7;
        self.0 ^= self.0 << 17;
        (self.0 >> 11) % limit
    }

    fn nibble(&mut self) -> u8 {
        self.below(16) as u8
    }

    fn bit(&mut self) -> bool {
        self.below(2) == 1
    }

    fn machine(&mut self) -> Machine {
        let mut m = fresh(DEVICE);
        (m.acc, m.hr, m.lr, m.sp, m.mask) = (self.nibble(), self.nibble(), self.nibble(), self.nibble(), self.nibble());
        m.pc = self.below(8192) as u16;
        m.dp = self.below(4096) as u16;
        m.ta = 4095 - self.below(3) as u16;
        m.tb = 4095 - self.below(3) as u16;
        (m.cf, m.zf, m.sf, m.ei) = (self.bit(), self.bit(), self.bit(), self.below(4) == 0);
        m.il = self.below(64) as u8 & 0b10_1111;
        m.due = due_number(m.il, m.mask);
        m.time_base = (self.below(1 << 19) as u32) * 8;
        m.ram.iter_mut().for_each(|nibble| *nibble = self.nibble());
        m.ports.p9 = if self.bit() { 8 } else { 0 };
        m.ports.p28 = self.nibble();
        m.ports.p29 = self.nibble();
        m.last_frame.p8 = self.nibble();
        m
    }

    fn frames(&mut self, count: usize) -> Vec<u8> {
        (0..count)
            .flat_map(|_| format!("{:X}{:x}{}", self.nibble(), self.nibble(), self.below(2)).into_bytes())
            .collect()
    }
}

#[test]
fn a_stop_gives_the_record_as_the_look_left_it_and_every_record_is_valid() {
    let mut numbers = Numbers(0x2545_F491_4F6C_DD1D);
    let mut image: Vec<u8> = (0..IMAGE_SIZE).map(|_| numbers.below(256) as u8).collect();
    image[IMAGE_SIZE - 1] = 0xC0; // LBR, without its second byte
    let mut seen = [0u32; 36];
    for _ in 0..200_000 {
        let before = numbers.machine();
        let frame = numbers.frames(1);
        let stepped = step(&image, OPTIONS, &before, &frame).unwrap();
        assert!(is_valid(DEVICE, &stepped.machine));
        seen[stepped.stop as usize] += 1;
        if stepped.stop != 0 {
            let looked = look(OPTIONS, &before, &frame).unwrap();
            assert_eq!((&stepped.machine, stepped.cycles), (&looked.machine, 0));
        }
    }
    assert!([0, 30, 31, 32, 33, 34, 35].iter().all(|stop| seen[*stop] > 0), "{seen:?}");
}

#[test]
fn a_run_is_its_steps() {
    let mut numbers = Numbers(0x9E37_79B9_7F4A_7C15);
    let image: Vec<u8> = (0..IMAGE_SIZE).map(|_| numbers.below(256) as u8).collect();
    for _ in 0..2_000 {
        let before = numbers.machine();
        let frames = numbers.frames(40);
        let mut expected = Ran { machine: before.clone(), steps: 0, cycles: 0, stop: 0 };
        for frame in frames.chunks(DEVICE.frame_length()) {
            let stepped = step(&image, OPTIONS, &expected.machine, frame).unwrap();
            expected.machine = stepped.machine;
            expected.cycles += stepped.cycles as u64;
            expected.stop = stepped.stop;
            if stepped.stop != 0 {
                break;
            }
            expected.steps += 1;
        }
        assert_eq!(run(&image, OPTIONS, &before, &frames), Ok(expected));
    }
}

#[test]
fn reset_keeps_what_document_01_lists() {
    let before = Numbers(7).machine();
    let after = reset(DEVICE, &before).unwrap();
    let kept = Machine {
        ram: before.ram,
        acc: before.acc,
        hr: before.hr,
        lr: before.lr,
        sp: before.sp,
        dp: before.dp,
        cf: before.cf,
        zf: before.zf,
        ..fresh(DEVICE)
    };
    assert_eq!(after, kept);
}
