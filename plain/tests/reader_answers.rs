//! The reader against a folder of answers, `reader.txt` with the images it names. The folder's
//! name is in the variable READER_ANSWERS; without it there is nothing to compare.

use plain::*;

#[test]
fn the_reader_gives_the_answers() {
    let Ok(folder) = std::env::var("READER_ANSWERS") else { return };
    let answers = std::fs::read_to_string(format!("{folder}/reader.txt")).unwrap();
    let mut compared = 0;
    for line in answers.lines().filter(|line| !line.starts_with('#')) {
        let (place, rest) = line.split_once(": ").unwrap();
        let (_code, answer) = rest.split_once(": ").unwrap();
        let (image, address) = place.split_once(' ').unwrap();
        let image = std::fs::read(format!("{folder}/{image}")).unwrap();
        let address = u16::from_str_radix(address, 16).unwrap();
        assert_eq!(shown(&image, address), answer, "{line}");
        compared += 1;
    }
    println!("{compared} answers compared");
    assert!(compared > 0);
}

fn shown(image: &[u8], address: u16) -> String {
    let insn = match read(Device::Em73862, image, 0, address as usize) {
        Ok(insn) => insn,
        Err(number) => return format!("refused {number:02}"),
    };
    let sheet = Row::from_number(insn.row).unwrap().sheet();
    let operands: Vec<String> = sheet
        .operands
        .chars()
        .zip([insn.a, insn.b])
        .map(|(letter, value)| shown_operand(sheet.row, letter, value, address))
        .collect();
    let text = format!("{} {}", sheet.mnemonic, operands.join(","));
    format!("{}; {} {}", text.trim_end(), sheet.bytes, sheet.cycles)
}

fn shown_operand(row: Row, letter: char, value: u16, address: u16) -> String {
    match letter {
        'k' => format!("#{value:X}h"),
        'x' => format!("{value:02X}h"),
        'y' => format!("{value:X}h"),
        'b' => format!("{value}"),
        'p' => format!("P{value}"),
        'r' => format!("{value:06b}B"),
        'n' => format!("{:04X}h", short_call_target(value)),
        _ => format!("{:04X}h", target(row, value, address)),
    }
}

fn target(row: Row, field: u16, address: u16) -> u16 {
    match row {
        Row::Sbr => (address & 0x1FC0) | field,
        Row::Lbr => (address & 0x1000) | field,
        _ => field,
    }
}
