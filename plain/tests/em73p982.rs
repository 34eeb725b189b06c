//! Request Q-6, sentence by sentence.

use plain::*;

const DEVICE: Device = Device::Em73P982;
const OPTIONS: Options = Options { device: DEVICE, wake: 0xFF, sound: false };
const NOP: u8 = 0x56;
const RTI: u8 = 0x4D;

/// An image of NOPs with codes at places of the image.
fn image_with(codes: &[(usize, &[u8])]) -> Vec<u8> {
    let mut image = vec![NOP; DEVICE.image_size()];
    for (place, code) in codes {
        image[*place..place + code.len()].copy_from_slice(code);
    }
    image
}

fn with_p3(p3: u8) -> Machine {
    let mut machine = fresh(DEVICE);
    machine.ports.p3 = p3;
    machine
}

/// The record and the stop after the code at address 0.
fn after(code: &[u8], options: Options, machine: &Machine, frame: &[u8]) -> (Machine, u8) {
    let stepped = step(&image_with(&[(0, code)]), options, machine, frame).unwrap();
    (stepped.machine, stepped.stop)
}

fn insn(row: Row, a: u16, b: u16) -> Insn {
    Insn { row: row.number(), a, b }
}

#[test]
fn an_image_is_16384_bytes() {
    for size in [0, 8192, 16383, 16385] {
        assert_eq!(step(&vec![NOP; size], OPTIONS, &fresh(DEVICE), b"FFF0"), Err(1));
        assert_eq!(read(DEVICE, &vec![NOP; size], 0, 0), Err(1));
    }
    let em73862 = Options { device: Device::Em73862, ..OPTIONS };
    assert_eq!(step(&image_with(&[]), em73862, &fresh(Device::Em73862), b"FF1"), Err(1));
}

#[test]
fn the_upper_addresses_show_the_bank_of_p3() {
    // LDIA 1, 2 and 3 at the same address of the three banks.
    let image = image_with(&[(0x0234, &[0xD0]), (0x1234, &[0xD1]), (0x2234, &[0xD2]), (0x3234, &[0xD3])]);
    for (p3, acc) in [(0, 1), (1, 2), (2, 3), (4, 1), (8, 1), (13, 2), (14, 3)] {
        let before = Machine { pc: 0x1234, ..with_p3(p3) };
        assert_eq!(step(&image, OPTIONS, &before, b"FFF0").unwrap().machine.acc, acc);
        assert_eq!(read(DEVICE, &image, p3 as u32, 0x1234), Ok(insn(Row::Ldia, acc as u16, 0)));
        assert_eq!(read(DEVICE, &image, p3 as u32, 0x0234), Ok(insn(Row::Ldia, 0, 0)));
    }
}

#[test]
fn table_reads_use_the_same_window() {
    let image = image_with(&[(0, &[0x65]), (1, &[0x67]), (0x1777, &[0x21]), (0x2777, &[0x43]), (0x3777, &[0x65])]);
    for (p3, low, high) in [(0, 1, 2), (1, 3, 4), (2, 5, 6), (6, 5, 6)] {
        let before = Machine { dp: 0x777, ..with_p3(p3) };
        assert_eq!(run(&image, OPTIONS, &before, b"FFF0").unwrap().machine.acc, low);
        let both = run(&image, OPTIONS, &before, b"FFF0FFF0").unwrap().machine;
        assert_eq!((both.acc, both.dp), (high, 0x778));
    }
}

#[test]
fn writing_p3_in_the_window_moves_the_next_fetch() {
    // OUT #2,P3 at 1100 of bank 1; what follows it is in bank 3.
    let image = image_with(&[(0x1100, &[0x4A, 0x23, 0xD1]), (0x2102, &[0xD2]), (0x3102, &[0xD3])]);
    let before = Machine { pc: 0x1100, ..fresh(DEVICE) };
    let ran = run(&image, OPTIONS, &before, b"FFF0FFF0").unwrap();
    assert_eq!((ran.stop, ran.machine.ports.p3, ran.machine.pc, ran.machine.acc), (0, 2, 0x1103, 3));
}

#[test]
fn return_addresses_carry_no_bank() {
    // SCALL 000E at 1100 of bank 1; there OUT #1,P3 and RET, which goes to 1101 of bank 2.
    let image = image_with(&[(0x1100, &[0xE1, 0xD1]), (0x000E, &[0x4A, 0x13, 0x4F]), (0x2101, &[0xD2])]);
    let before = Machine { pc: 0x1100, sp: 5, ..fresh(DEVICE) };
    let ran = run(&image, OPTIONS, &before, &b"FFF0".repeat(4)).unwrap();
    assert_eq!((ran.stop, ran.machine.pc, ran.machine.acc), (0, 0x1102, 2));
}

#[test]
fn fresh_and_reset() {
    let ports = fresh(DEVICE).ports;
    assert_eq!((ports.p3, ports.p5, ports.p6, ports.p17), (0, 0, 0, 15));
    assert_eq!(fresh(DEVICE).last_frame, Frame { p0: 15, p8: 15, p4: 15, speech: 0 });
    let ports = fresh(Device::Em73862).ports;
    assert_eq!((ports.p3, ports.p5, ports.p6, ports.p17), (0, 0, 0, 0));
    let mut before = Machine { acc: 7, hr: 6, dp: 0x123, cf: true, ..with_p3(14) };
    (before.ports.p5, before.ports.p6, before.ports.p17) = (5, 6, 7);
    (before.last_frame.p4, before.last_frame.speech) = (3, 1);
    assert_eq!(reset(DEVICE, &before), Ok(Machine { acc: 7, hr: 6, dp: 0x123, cf: true, ..fresh(DEVICE) }));
}

#[test]
fn speech_takes_il0_and_00ch() {
    for (frame, il) in [(b"FFF1", 1), (b"FFF0", 0), (b"FEF0", 0), (b"FEF1", 1)] {
        assert_eq!(after(&[NOP], OPTIONS, &fresh(DEVICE), frame).0.il, il, "INT1 is gone, and P8.0's edge is nothing");
    }
    // Level: the digit of the last frame is not asked.
    let mut before = fresh(DEVICE);
    before.last_frame.speech = 1;
    assert_eq!(after(&[NOP], OPTIONS, &before, b"FFF1").0.il, 1);
    let before = Machine { ei: true, mask: 1, sp: 5, pc: 0x1555, ..fresh(DEVICE) };
    let (accepted, stop) = after(&[NOP], OPTIONS, &before, b"FFF1");
    assert_eq!((accepted.pc, accepted.sp, accepted.il, accepted.ei, stop), (0x00C, 4, 0, false, 0));
    assert_eq!(after(&[NOP], OPTIONS, &Machine { mask: 14, ..before }, b"FFF1").0.due, 0);
}

#[test]
fn speech_is_nothing_in_sleep_and_p8_0_still_wakes() {
    let mut asleep = Machine { mode: Mode::Sleep, ..fresh(DEVICE) };
    asleep.ports.p16 = 4;
    let (still, _) = after(&[NOP], OPTIONS, &asleep, b"FFF1");
    assert_eq!((still.mode, still.il, still.last_frame.speech), (Mode::Sleep, 0, 1));
    let (awake, _) = after(&[NOP], OPTIONS, &asleep, b"FEF1");
    assert_eq!((awake.mode, awake.il), (Mode::Running, 0));
}

#[test]
fn p4_is_read_whole() {
    const INA_P4: [u8; 2] = [0x6F, 0x44];
    const TTP_P4_1: [u8; 2] = [0x6D, 0x94];
    let with_sound = Options { sound: true, ..OPTIONS };
    for (frame, acc, acc_with_sound) in [(b"FF00", 0, 1), (b"FF20", 2, 3), (b"FFE0", 14, 15), (b"FF50", 5, 5)] {
        let mut before = fresh(DEVICE);
        before.ports.p4 = 6;
        let (read, _) = after(&INA_P4, OPTIONS, &before, frame);
        assert_eq!((read.acc, read.ports.p4), (acc, 15));
        assert_eq!(after(&INA_P4, with_sound, &before, frame).0.acc, acc_with_sound);
        assert_eq!(after(&TTP_P4_1, OPTIONS, &before, frame).0.sf, acc & 2 != 0);
    }
}

#[test]
fn ports_3_5_6_and_17_only_keep_what_is_written() {
    let kept = |machine: Machine| [machine.ports.p3, machine.ports.p5, machine.ports.p6, machine.ports.p17];
    let before = Machine { acc: 9, ..fresh(DEVICE) };
    let written: [(&[u8], [u8; 4]); 7] = [
        (&[0x6F, 0x03], [9, 0, 0, 15]),
        (&[0x6F, 0x05], [0, 9, 0, 15]),
        (&[0x6F, 0x06], [0, 0, 9, 15]),
        (&[0x6F, 0x11], [0, 0, 0, 9]),
        (&[0x4A, 0x65], [0, 6, 0, 15]),
        (&[0x6D, 0x63], [4, 0, 0, 15]),
        (&[0x6D, 0x76], [0, 0, 8, 15]),
    ];
    for (code, ports) in written {
        let (machine, stop) = after(code, OPTIONS, &before, b"FFF0");
        assert_eq!((stop, machine.pc, machine.mode), (0, 2, Mode::Running), "{code:02X?}");
        assert_eq!(kept(machine), ports, "{code:02X?}");
    }
    // SEPL by LR reaches P5 and P6, and P7 is none.
    for (lr, stop, ports) in [(6, 0, [0, 4, 0, 15]), (11, 0, [0, 0, 8, 15]), (12, 33, [0, 0, 0, 15])] {
        let found = after(&[0x62], OPTIONS, &Machine { lr, ..fresh(DEVICE) }, b"FFF0");
        assert_eq!((kept(found.0), found.1), (ports, stop));
    }
}

#[test]
fn ports_that_are_not_there() {
    // INA P3, P5, P6; TTP P3,0; TFPL of P5, where LR is 4; OUTA P7, P18.
    for code in [&[0x6F, 0x43][..], &[0x6F, 0x45], &[0x6F, 0x46], &[0x6D, 0x83], &[0x61], &[0x6F, 0x07], &[0x6F, 0x12]]
    {
        assert_eq!(after(code, OPTIONS, &Machine { lr: 4, ..fresh(DEVICE) }, b"FFF0").1, 33, "{code:02X?}");
    }
    let em73862 = Options { device: Device::Em73862, ..OPTIONS };
    for port in [0x03, 0x05, 0x06, 0x11] {
        let mut image = vec![NOP; Device::Em73862.image_size()];
        image[..2].copy_from_slice(&[0x6F, port]);
        assert_eq!(step(&image, em73862, &fresh(Device::Em73862), b"FF1").unwrap().stop, 33);
    }
}

#[test]
fn p3_never_becomes_3() {
    for value in 0..16 {
        let (machine, stop) = after(&[0x6F, 0x03], OPTIONS, &Machine { acc: value, ..with_p3(4) }, b"FFF0");
        let refused = value % 4 == 3;
        assert_eq!((stop, machine.ports.p3), if refused { (34, 4) } else { (0, value) });
    }
    // SEP P3,1 where bit 0 is set, and where it is not; CLP P3,0.
    assert_eq!(after(&[0x6D, 0x53], OPTIONS, &with_p3(1), b"FFF0").1, 34);
    assert_eq!(after(&[0x6D, 0x53], OPTIONS, &with_p3(12), b"FFF0").0.ports.p3, 14);
    assert_eq!(after(&[0x6D, 0xC3], OPTIONS, &with_p3(13), b"FFF0").0.ports.p3, 12);
}

#[test]
fn refusals_in_their_order() {
    let bad = with_p3(7);
    let image = image_with(&[]);
    assert_eq!(step(&[NOP; 8192], OPTIONS, &bad, b"FF1"), Err(1));
    assert_eq!(step(&image, OPTIONS, &bad, b"FF1"), Err(2));
    assert_eq!(step(&image, OPTIONS, &fresh(DEVICE), b"FF1"), Err(3));
    assert_eq!(step(&image, OPTIONS, &fresh(DEVICE), b"FFF2"), Err(3));
    let too_many = vec![b'!'; 262_145];
    assert_eq!(run(&image, OPTIONS, &bad, &too_many), Err(2));
    assert_eq!(run(&image, OPTIONS, &fresh(DEVICE), &too_many), Err(4));
    assert_eq!(run(&image, OPTIONS, &fresh(DEVICE), &too_many[1..]), Err(3));
    assert_eq!(run(&image, OPTIONS, &fresh(DEVICE), &b"FFF0".repeat(MOST_FRAMES)).unwrap().steps, 65_536);
    for p3 in [3, 7, 11, 15, 16, 19, u32::MAX] {
        assert_eq!(read(DEVICE, &image[1..], p3, 8192), Err(1));
        assert_eq!(read(DEVICE, &image, p3, 8192), Err(2));
        assert_eq!(bound(DEVICE, &image[1..], p3, 8192, &mut [], &mut []), Bound::ImageSize);
        assert_eq!(bound(DEVICE, &image, p3, 8192, &mut [], &mut []), Bound::P3);
    }
    assert_eq!(read(DEVICE, &image, 2, 8192), Err(20));
    assert_eq!(bound(DEVICE, &image, 2, 8192, &mut [], &mut []), Bound::AddressOver8191);
}

#[test]
fn the_end_is_1fff_and_the_banks_are_no_ends() {
    // LBR's first byte at the end of bank 0 and of bank 2; its second at the starts of the banks.
    let codes: [(usize, &[u8]); 5] =
        [(0x0FFF, &[0xC1]), (0x1000, &[0x11]), (0x2000, &[0x22]), (0x3000, &[0x33]), (0x2FFF, &[0xC4])];
    let image = image_with(&codes);
    for (p3, a) in [(0, 0x111), (1, 0x122), (2, 0x133)] {
        assert_eq!(read(DEVICE, &image, p3, 0x0FFF), Ok(insn(Row::Lbr, a, 0)));
    }
    assert_eq!(read(DEVICE, &image, 1, 0x1FFF), Err(35));
    assert_eq!(read(DEVICE, &image, 0, 0x1FFF), Ok(insn(Row::Nop, 0, 0)));
    let stepped = step(&image, OPTIONS, &Machine { pc: 0x1FFF, ..with_p3(1) }, b"FFF0").unwrap();
    assert_eq!(stepped.stop, 35);
    let stepped = step(&image, OPTIONS, &Machine { pc: 0x1FFF, ..with_p3(2) }, b"FFF0").unwrap();
    assert_eq!((stepped.stop, stepped.machine.pc), (0, 0));
}

#[test]
fn the_bound_sees_the_window_of_its_p3() {
    let image = image_with(&[(0x1100, &[RTI]), (0x2100, &[NOP, RTI]), (0x3100, &[0x4F])]);
    let (mut path, mut deep) = ([0; 8], [0; 8]);
    let mut bounded = |p3| bound(DEVICE, &image, p3, 0x1100, &mut path, &mut deep);
    assert_eq!(bounded(0), Bound::Cycles { most: 2, path_bytes: 2, depth: 0, deep_bytes: 2 });
    assert_eq!(bounded(5), Bound::Cycles { most: 3, path_bytes: 4, depth: 0, deep_bytes: 4 });
    assert_eq!(bounded(2), Bound::Excluded(0x1100));
    assert_eq!((&path[..4], &deep[..4]), (&[0x00, 0x11, 0x01, 0x11][..], &[0x00, 0x11, 0x01, 0x11][..]));
}

#[test]
fn rows_that_write_p3_are_excluded() {
    // OUT, OUTA, OUTM, SEP and CLP with P3; then others with it or with another port.
    let writing: [[u8; 2]; 5] = [[0x4A, 0x03], [0x6F, 0x03], [0x6F, 0x83], [0x6D, 0x43], [0x6D, 0xC3]];
    let others: [[u8; 2]; 7] =
        [[0x4A, 0x35], [0x6F, 0x43], [0x6D, 0x03], [0x6D, 0x83], [0x6F, 0x13], [0x6D, 0x45], [0x6F, 0x06]];
    let bounded = |device: Device, code: &[u8]| {
        let mut image = vec![RTI; device.image_size()];
        image[0x100..0x100 + code.len()].copy_from_slice(code);
        bound(device, &image, 0, 0x100, &mut [0; 8], &mut [0; 8])
    };
    let ended = Bound::Cycles { most: 4, path_bytes: 4, depth: 0, deep_bytes: 4 };
    for code in writing {
        assert_eq!((bounded(DEVICE, &code), bounded(Device::Em73862, &code)), (Bound::Excluded(0x100), ended));
    }
    for code in others {
        assert_eq!((bounded(DEVICE, &code), bounded(Device::Em73862, &code)), (ended, ended), "{code:02X?}");
    }
    // SEPL and CLPL cannot name P3.
    assert_eq!(bounded(DEVICE, &[0x62]), bounded(Device::Em73862, &[0x62]));
    assert_eq!(bounded(DEVICE, &[0x60]).number(), 0);
}

#[test]
fn nothing_else_differs() {
    // The same code at address 0 of both, with P4.0 as the EM73862 has it: all records agree but for what the EM73P982 adds.
    let mut agreed = 0;
    for first in 0..=255u8 {
        for second in (0..=255u8).step_by(5) {
            let code = [first, second, 0x5A];
            let names_an_added_port = matches!(first, 0x4A | 0x6D | 0x6F);
            let mut image = vec![NOP; 8192];
            image[..3].copy_from_slice(&code);
            let old = Machine { sp: 5, hr: 1, lr: 2, acc: 9, dp: 0x0FF, ..fresh(Device::Em73862) };
            let new = Machine { sp: 5, hr: 1, lr: 2, acc: 9, dp: 0x0FF, ..fresh(DEVICE) };
            let em73862 = Options { device: Device::Em73862, ..OPTIONS };
            let old = step(&image, em73862, &old, b"FF1").unwrap();
            let mut new = step(&image_with(&[(0, &code)]), OPTIONS, &new, b"FFF0").unwrap();
            if names_an_added_port && new.stop != old.stop {
                continue;
            }
            assert_eq!(new.machine.ports.p17, 15);
            new.machine.ports.p17 = 0;
            new.machine.last_frame.p4 = 1;
            assert_eq!(new, old, "{code:02X?}");
            agreed += 1;
        }
    }
    assert!(agreed > 13_000);
}
