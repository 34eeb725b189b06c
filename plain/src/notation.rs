//! A row in the sheet's notation, and where it goes. Sentences in quotation marks are of docs/PROGRAMS.md.

use crate::code::Insn;
use crate::execute::{branch_target, short_call_target};
use crate::rows::Row;

/// "a branch or call shows where it goes": none for a row that is neither.
pub fn goes_to(insn: Insn, own_address: u16) -> Option<u16> {
    match Row::from_number(insn.row)? {
        row @ (Row::Sbr | Row::Lbr | Row::Slbr) => Some(branch_target(row, insn.a, own_address)),
        Row::Lcall => Some(insn.a),
        Row::Scall => Some(short_call_target(insn.a)),
        _ => None,
    }
}

/// "k as # one digit h; x two digits h; y one digit h; b decimal; p as P decimal; r six binary digits B; a branch or call shows where it goes, four
/// digits h".
pub fn notation(insn: Insn, own_address: u16) -> String {
    let Some(row) = Row::from_number(insn.row) else { return String::new() };
    let sheet = row.sheet();
    let words: Vec<String> = sheet
        .operands
        .chars()
        .zip([insn.a, insn.b])
        .map(|(letter, operand)| match letter {
            'k' => format!("#{operand:X}h"),
            'x' => format!("{operand:02X}h"),
            'y' => format!("{operand:X}h"),
            'b' => format!("{operand}"),
            'p' => format!("P{operand}"),
            'r' => format!("{operand:06b}B"),
            _ => format!("{:04X}h", goes_to(insn, own_address).unwrap_or(0)),
        })
        .collect();
    if words.is_empty() {
        sheet.mnemonic.to_string()
    } else {
        format!("{} {}", sheet.mnemonic, words.join(","))
    }
}
