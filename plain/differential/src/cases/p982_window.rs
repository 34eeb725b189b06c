//! Request Q-6: "Addresses 0000h to 0FFFh are bank 0; 1000h to 1FFFh are bank 1, 2 or 3 for P3 bits 1..0 = 0, 1, 2, and table reads use the same
//! window." "The reader and the bound take P3 as an input; .. and any row writing P3, by set or clear too, joins the bound's excluded rows."

use super::record::{fresh_p982, with};
use super::{answer, refused, Case, ALL_WAKE, NOP, SOUND_OFF};
use crate::calls::{Answer, Call, Image, Paths};
use plain::numbers::{ADDRESS, EXCLUDED, IMAGE_SIZE, PAST_END, RECORD_RANGE};
use plain::{Device, Row};

const DEVICE: Device = Device::Em73P982;
const RTI: u8 = 0x4D;

/// P3 and the bank that it shows.
const WINDOWS: [(u32, u32); 7] = [(0, 1), (1, 2), (2, 3), (4, 1), (8, 1), (13, 2), (14, 3)];

/// A P3 that is refused.
const NO_WINDOWS: [u32; 7] = [3, 7, 11, 15, 16, 256, u32::MAX];

/// Codes that write P3, and others.
const WRITE_P3: [[u8; 2]; 5] = [[0x4A, 0x03], [0x6F, 0x03], [0x6F, 0x83], [0x6D, 0x43], [0x6D, 0xC3]];
const OTHERS: [[u8; 2]; 4] = [[0x4A, 0x35], [0x6F, 0x43], [0x6D, 0x83], [0x6F, 0x06]];

pub fn cases() -> Vec<Case> {
    [executed(), tables(), moved(), borders(), read(), refusals(), bounds()].into_iter().flatten().collect()
}

/// An image of NOPs with codes at places of the image.
fn image_with(codes: &[(usize, &[u8])]) -> Image {
    let mut image = vec![NOP; DEVICE.image_size()];
    for (place, code) in codes {
        image[*place..place + code.len()].copy_from_slice(code);
    }
    image.into()
}

/// LDIA 0 at 0234h, and LDIA with the bank's number at 1234h.
fn image_of_banks() -> Image {
    image_with(&[(0x0234, &[0xD0]), (0x1234, &[0xD1]), (0x2234, &[0xD2]), (0x3234, &[0xD3])])
}

fn step(image: Image, record: Vec<u8>) -> Call {
    Call::Step { device: DEVICE, image, wake: ALL_WAKE, sound: SOUND_OFF, record, frame: b"FFF0".to_vec() }
}

fn case(name: String, call: Call, expected: Answer) -> Case {
    Case { name, call, expected }
}

fn executed() -> Vec<Case> {
    let executed = |(p3, bank)| {
        let before = with(&fresh_p982(), &[("PC", 0x1234), ("P3", p3)]);
        let after = with(&before, &[("PC", 0x1235), ("ACC", bank), ("time base", 8)]);
        case(format!("a row through the window of P3 {p3}"), step(image_of_banks(), before), answer(0, &[1], after))
    };
    WINDOWS.into_iter().map(executed).collect()
}

/// LDAX at address 0, with bytes 10h, 21h, 32h and 43h at FFFh of the banks.
fn tables() -> Vec<Case> {
    let image = image_with(&[(0, &[0x65]), (0x0FFF, &[0x10]), (0x1FFF, &[0x21]), (0x2FFF, &[0x32]), (0x3FFF, &[0x43])]);
    let table = |(p3, bank)| {
        let before = with(&fresh_p982(), &[("DP", 0xFFF), ("P3", p3)]);
        let after = with(&before, &[("PC", 1), ("ACC", bank), ("time base", 16)]);
        case(format!("LDAX through the window of P3 {p3}"), step(image.clone(), before), answer(0, &[2], after))
    };
    WINDOWS.into_iter().map(table).collect()
}

/// OUT #2,P3 at 1100h of bank 1: the next row is at 1102h of bank 3, LDIA 3.
fn moved() -> Vec<Case> {
    let image = image_with(&[(0x1100, &[0x4A, 0x23, 0xD1]), (0x2102, &[0xD2]), (0x3102, &[0xD3])]);
    let record = with(&fresh_p982(), &[("PC", 0x1100)]);
    let after = with(&record, &[("PC", 0x1103), ("P3", 2), ("ACC", 3), ("time base", 24)]);
    let (device, frames) = (DEVICE, b"FFF0FFF0".to_vec());
    let call = Call::Run { device, image, wake: ALL_WAKE, sound: SOUND_OFF, record, frames };
    vec![case("P3 written in the window".to_string(), call, answer(0, &[2, 3], after))]
}

/// LBR at 0FFFh, whose second byte is in the window, and at 1FFFh, where the image ends; a NOP there goes on at 0000h.
fn borders() -> Vec<Case> {
    let image = image_with(&[(0x0FFF, &[0xC1]), (0x1000, &[0x11]), (0x3000, &[0x33]), (0x2FFF, &[0xC4])]);
    let mut cases = Vec::new();
    for (p3, pc) in [(0, 0x111), (2, 0x133)] {
        let before = with(&fresh_p982(), &[("PC", 0x0FFF), ("P3", p3)]);
        let after = with(&before, &[("PC", pc), ("time base", 16)]);
        let name = format!("LBR at 0FFFh, P3 {p3}");
        cases.push(case(name, step(image.clone(), before), answer(0, &[2], after)));
    }
    let cut = with(&fresh_p982(), &[("PC", 0x1FFF), ("P3", 1)]);
    cases.push(case("LBR at 1FFFh".to_string(), step(image.clone(), cut.clone()), answer(PAST_END, &[0], cut)));
    let whole = with(&fresh_p982(), &[("PC", 0x1FFF), ("P3", 2)]);
    let after = with(&whole, &[("PC", 0), ("time base", 8)]);
    cases.push(case("NOP at 1FFFh".to_string(), step(image, whole), answer(0, &[1], after)));
    cases
}

/// LDIA as read, length, row and notation give it.
fn read() -> Vec<Case> {
    let ldia = Row::Ldia.number() as u32;
    let device = DEVICE;
    let mut cases = Vec::new();
    for (p3, bank) in WINDOWS.into_iter().flat_map(|(p3, bank)| [(p3, bank), (p3, 0)]) {
        let address = if bank == 0 { 0x0234 } else { 0x1234 };
        let image = image_of_banks();
        let text = format!("LDIA #{bank}h").into_bytes();
        let size = text.len() as u32;
        let calls = [
            (Call::Read { device, image: image.clone(), p3, address }, answer(0, &[ldia, bank, 0], Vec::new())),
            (Call::Length { device, image: image.clone(), p3, address }, answer(0, &[1, 1], Vec::new())),
            (
                Call::Row { device, image: image.clone(), p3, address },
                answer(0, &[ldia, bank, 0, 8192, 1, 1], Vec::new()),
            ),
            (Call::Notation { device, image, p3, address, text: vec![0; text.len()] }, answer(0, &[size], text)),
        ];
        let name = format!("P3 {p3}, address {address:04X}h");
        cases.extend(calls.map(|(call, expected)| case(name.clone(), call, expected)));
    }
    cases
}

/// The five calls that P3 goes into.
fn with_p3(image: Image, p3: u32, address: u32) -> [Call; 5] {
    let device = DEVICE;
    [
        Call::Read { device, image: image.clone(), p3, address },
        Call::Length { device, image: image.clone(), p3, address },
        Call::Row { device, image: image.clone(), p3, address },
        Call::Notation { device, image: image.clone(), p3, address, text: vec![0xAA; 16] },
        Call::Bound { device, image, p3, address, paths: Paths::new(&[0xAA; 16], &[0xAA; 16]) },
    ]
}

/// 1 comes before 2, and 2 before 20.
fn refusals() -> Vec<Case> {
    let short: Image = vec![NOP; 8192].into();
    let mut inputs = vec![(short.clone(), 0, 0, IMAGE_SIZE), (image_with(&[]), 2, 8192, ADDRESS)];
    for p3 in NO_WINDOWS {
        inputs.push((short.clone(), p3, 8192, IMAGE_SIZE));
        inputs.push((image_with(&[]), p3, 0, RECORD_RANGE));
        inputs.push((image_with(&[]), p3, 8192, RECORD_RANGE));
    }
    let mut cases = Vec::new();
    for (image, p3, address, number) in inputs {
        let name = format!("image of {} bytes, P3 {p3}, address {address}", image.len());
        let calls = with_p3(image, p3, address).into_iter();
        cases.extend(calls.map(|call| case(name.clone(), call.clone(), refused(number, &call))));
    }
    cases
}

/// Handlers at 1100h of each bank, and rows that write P3 before an RTI.
fn bounds() -> Vec<Case> {
    let image = image_with(&[(0x1100, &[RTI]), (0x2100, &[NOP, RTI]), (0x3100, &[0x4F])]);
    let bound = |image: &Image, p3, address| Call::Bound {
        device: DEVICE,
        image: image.clone(),
        p3,
        address,
        paths: Paths::new(&[0; 4], &[0; 4]),
    };
    // Without a branch the two paths are the same.
    let paths = |path: [u8; 4]| Paths::new(&path, &path).bytes().to_vec();
    let mut cases = vec![
        case("a bound, P3 0".to_string(), bound(&image, 0, 0x1100), answer(0, &[2], paths([0x00, 0x11, 0, 0]))),
        case("a bound, P3 5".to_string(), bound(&image, 5, 0x1100), answer(0, &[3], paths([0x00, 0x11, 0x01, 0x11]))),
        case("a bound, P3 2".to_string(), bound(&image, 2, 0x1100), answer(EXCLUDED, &[0x1100], paths([0; 4]))),
    ];
    for (codes, number, value, path) in
        [(&WRITE_P3[..], EXCLUDED, 0x100, [0; 4]), (&OTHERS[..], 0, 4, [0x00, 0x01, 0x02, 0x01])]
    {
        for code in codes {
            let image = image_with(&[(0x0100, code), (0x0102, &[RTI])]);
            let expected = answer(number, &[value], paths(path));
            cases.push(case(format!("a bound over {code:02X?}"), bound(&image, 0, 0x100), expected));
        }
    }
    cases
}
