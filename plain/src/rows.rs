//! The 107 rows of sheet 000's instruction table, in its order, numbered from 1.

/// One row of the instruction table; its number is its place in the sheet.
#[derive(Clone, Copy, Debug, PartialEq, Eq)]
#[repr(u8)]
pub enum Row {
    // (1) Data transfer
    Lda = 1,
    Ldam,
    Ldax,
    Ldaxi,
    Ldh,
    Ldhl,
    Ldia,
    Ldl,
    Sta,
    Stam,
    Stamd,
    Stami,
    Std,
    Stdmi,
    Tha,
    Tla,
    // (2) Rotate
    Rlca,
    Rrca,
    // (3) Arithmetic operation
    Adcam,
    Add,
    Adda,
    Addam,
    Addh,
    Addl,
    Addm,
    Deca,
    Decl,
    Decm,
    Inca,
    Incl,
    Incm,
    Suba,
    Sbcam,
    Subm,
    // (4) Logical operation
    Anda,
    Andam,
    Andm,
    Ora,
    Oram,
    Orm,
    Xoram,
    // (5) Exchange
    Exa,
    Exah,
    Exal,
    Exam,
    Exhl,
    // (6) Branch
    Sbr,
    Lbr,
    Slbr,
    // (7) Compare
    Cmp,
    Cpma,
    Cmpam,
    Cmph,
    Cmpia,
    Cmpl,
    // (8) Bit manipulation
    Clm,
    Clp,
    Clpl,
    Clr,
    Sem,
    Sep,
    Sepl,
    Set,
    Tf,
    Tfa,
    Tfm,
    Tfp,
    Tfpl,
    Tt,
    Ttp,
    // (9) Subroutine
    Lcall,
    Scall,
    Ret,
    // (10) Input/output
    Ina,
    Inm,
    Out,
    Outa,
    Outm,
    // (11) Flag manipulation
    Tfcfc,
    Ttcfs,
    Tzs,
    // (12) Interrupt control
    Cil,
    Dicil,
    Eicil,
    Exae,
    Rti,
    // (13) CPU control
    Nop,
    // (14) Timer/counter, data pointer and stack pointer control
    Ldadpl,
    Ldadpm,
    Ldadph,
    Ldasp,
    Ldatal,
    Ldatam,
    Ldatah,
    Ldatbl,
    Ldatbm,
    Ldatbh,
    Stadpl,
    Stadpm,
    Stadph,
    Stasp,
    Statal,
    Statam,
    Statah,
    Statbl,
    Statbm,
    Statbh,
}

/// What the sheet prints of a row.
#[derive(Clone, Copy, Debug)]
pub struct SheetRow {
    pub row: Row,
    pub mnemonic: &'static str,
    /// The operand letters in the mnemonic's order.
    pub operands: &'static str,
    /// The object code: 0 and 1 are fixed bits, a letter is a bit of that operand.
    pub code: &'static str,
    pub bytes: u8,
    pub cycles: u8,
    /// The S column.
    pub status: &'static str,
}

const fn row(
    row: Row,
    mnemonic: &'static str,
    operands: &'static str,
    code: &'static str,
    bytes: u8,
    cycles: u8,
    status: &'static str,
) -> SheetRow {
    SheetRow { row, mnemonic, operands, code, bytes, cycles, status }
}

/// The table. SLBR is one row: its first code is shown, the second begins with 57h.
pub const SHEET: [SheetRow; 107] = [
    // (1) Data transfer
    row(Row::Lda, "LDA", "x", "0110 1010 xxxx xxxx", 2, 2, "1"),
    row(Row::Ldam, "LDAM", "", "0101 1010", 1, 1, "1"),
    row(Row::Ldax, "LDAX", "", "0110 0101", 1, 2, "1"),
    row(Row::Ldaxi, "LDAXI", "", "0110 0111", 1, 2, "1"),
    row(Row::Ldh, "LDH", "k", "1001 kkkk", 1, 1, "1"),
    row(Row::Ldhl, "LDHL", "x", "0100 1110 xxxx xx00", 2, 2, "1"),
    row(Row::Ldia, "LDIA", "k", "1101 kkkk", 1, 1, "1"),
    row(Row::Ldl, "LDL", "k", "1000 kkkk", 1, 1, "1"),
    row(Row::Sta, "STA", "x", "0110 1001 xxxx xxxx", 2, 2, "1"),
    row(Row::Stam, "STAM", "", "0101 1001", 1, 1, "1"),
    row(Row::Stamd, "STAMD", "", "0111 1101", 1, 1, "C"),
    row(Row::Stami, "STAMI", "", "0111 1111", 1, 1, "C'"),
    row(Row::Std, "STD", "ky", "0100 1000 kkkk yyyy", 2, 2, "1"),
    row(Row::Stdmi, "STDMI", "k", "1010 kkkk", 1, 1, "C'"),
    row(Row::Tha, "THA", "", "0111 0110", 1, 1, "1"),
    row(Row::Tla, "TLA", "", "0111 0100", 1, 1, "1"),
    // (2) Rotate
    row(Row::Rlca, "RLCA", "", "0101 0000", 1, 1, "C'"),
    row(Row::Rrca, "RRCA", "", "0101 0001", 1, 1, "C'"),
    // (3) Arithmetic operation
    row(Row::Adcam, "ADCAM", "", "0111 0000", 1, 1, "C'"),
    row(Row::Add, "ADD", "ky", "0100 1001 kkkk yyyy", 2, 2, "C'"),
    row(Row::Adda, "ADDA", "k", "0110 1110 0101 kkkk", 2, 2, "C'"),
    row(Row::Addam, "ADDAM", "", "0111 0001", 1, 1, "C'"),
    row(Row::Addh, "ADDH", "k", "0110 1110 1001 kkkk", 2, 2, "C'"),
    row(Row::Addl, "ADDL", "k", "0110 1110 0001 kkkk", 2, 2, "C'"),
    row(Row::Addm, "ADDM", "k", "0110 1110 1101 kkkk", 2, 2, "C'"),
    row(Row::Deca, "DECA", "", "0101 1100", 1, 1, "C"),
    row(Row::Decl, "DECL", "", "0111 1100", 1, 1, "C"),
    row(Row::Decm, "DECM", "", "0101 1101", 1, 1, "C"),
    row(Row::Inca, "INCA", "", "0101 1110", 1, 1, "C'"),
    row(Row::Incl, "INCL", "", "0111 1110", 1, 1, "C'"),
    row(Row::Incm, "INCM", "", "0101 1111", 1, 1, "C'"),
    row(Row::Suba, "SUBA", "k", "0110 1110 0111 kkkk", 2, 2, "C"),
    row(Row::Sbcam, "SBCAM", "", "0111 0010", 1, 1, "C"),
    row(Row::Subm, "SUBM", "k", "0110 1110 1111 kkkk", 2, 2, "C"),
    // (4) Logical operation
    row(Row::Anda, "ANDA", "k", "0110 1110 0110 kkkk", 2, 2, "Z'"),
    row(Row::Andam, "ANDAM", "", "0111 1011", 1, 1, "Z'"),
    row(Row::Andm, "ANDM", "k", "0110 1110 1110 kkkk", 2, 2, "Z'"),
    row(Row::Ora, "ORA", "k", "0110 1110 0100 kkkk", 2, 2, "Z'"),
    row(Row::Oram, "ORAM", "", "0111 1000", 1, 1, "Z'"),
    row(Row::Orm, "ORM", "k", "0110 1110 1100 kkkk", 2, 2, "Z'"),
    row(Row::Xoram, "XORAM", "", "0111 1001", 1, 1, "Z'"),
    // (5) Exchange
    row(Row::Exa, "EXA", "x", "0110 1000 xxxx xxxx", 2, 2, "1"),
    row(Row::Exah, "EXAH", "", "0110 0110", 1, 2, "1"),
    row(Row::Exal, "EXAL", "", "0110 0100", 1, 2, "1"),
    row(Row::Exam, "EXAM", "", "0101 1000", 1, 1, "1"),
    row(Row::Exhl, "EXHL", "x", "0100 1100 xxxx xx00", 2, 2, "1"),
    // (6) Branch
    row(Row::Sbr, "SBR", "a", "00aa aaaa", 1, 1, "1"),
    row(Row::Lbr, "LBR", "a", "1100 aaaa aaaa aaaa", 2, 2, "1"),
    row(Row::Slbr, "SLBR", "a", "0101 0101 1100 aaaa aaaa aaaa", 3, 3, "1"),
    // (7) Compare
    row(Row::Cmp, "CMP", "ky", "0100 1011 kkkk yyyy", 2, 2, "Z'"),
    row(Row::Cpma, "CPMA", "x", "0110 1011 xxxx xxxx", 2, 2, "Z'"),
    row(Row::Cmpam, "CMPAM", "", "0111 0011", 1, 1, "Z'"),
    row(Row::Cmph, "CMPH", "k", "0110 1110 1011 kkkk", 2, 2, "C"),
    row(Row::Cmpia, "CMPIA", "k", "1011 kkkk", 1, 1, "Z'"),
    row(Row::Cmpl, "CMPL", "k", "0110 1110 0011 kkkk", 2, 2, "C"),
    // (8) Bit manipulation
    row(Row::Clm, "CLM", "b", "1111 00bb", 1, 1, "1"),
    row(Row::Clp, "CLP", "pb", "0110 1101 11bb pppp", 2, 2, "1"),
    row(Row::Clpl, "CLPL", "", "0110 0000", 1, 2, "1"),
    row(Row::Clr, "CLR", "yb", "0110 1100 11bb yyyy", 2, 2, "1"),
    row(Row::Sem, "SEM", "b", "1111 01bb", 1, 1, "1"),
    row(Row::Sep, "SEP", "pb", "0110 1101 01bb pppp", 2, 2, "1"),
    row(Row::Sepl, "SEPL", "", "0110 0010", 1, 2, "1"),
    row(Row::Set, "SET", "yb", "0110 1100 01bb yyyy", 2, 2, "1"),
    row(Row::Tf, "TF", "yb", "0110 1100 00bb yyyy", 2, 2, "*"),
    row(Row::Tfa, "TFA", "b", "1111 10bb", 1, 1, "*"),
    row(Row::Tfm, "TFM", "b", "1111 11bb", 1, 1, "*"),
    row(Row::Tfp, "TFP", "pb", "0110 1101 00bb pppp", 2, 2, "*"),
    row(Row::Tfpl, "TFPL", "", "0110 0001", 1, 2, "*"),
    row(Row::Tt, "TT", "yb", "0110 1100 10bb yyyy", 2, 2, "*"),
    row(Row::Ttp, "TTP", "pb", "0110 1101 10bb pppp", 2, 2, "*"),
    // (9) Subroutine
    row(Row::Lcall, "LCALL", "a", "0100 0aaa aaaa aaaa", 2, 2, "-"),
    row(Row::Scall, "SCALL", "n", "1110 nnnn", 1, 2, "-"),
    row(Row::Ret, "RET", "", "0100 1111", 1, 2, "-"),
    // (10) Input/output
    row(Row::Ina, "INA", "p", "0110 1111 0100 pppp", 2, 2, "Z'"),
    row(Row::Inm, "INM", "p", "0110 1111 1100 pppp", 2, 2, "Z'"),
    row(Row::Out, "OUT", "kp", "0100 1010 kkkk pppp", 2, 2, "1"),
    row(Row::Outa, "OUTA", "p", "0110 1111 000p pppp", 2, 2, "1"),
    row(Row::Outm, "OUTM", "p", "0110 1111 100p pppp", 2, 2, "1"),
    // (11) Flag manipulation
    row(Row::Tfcfc, "TFCFC", "", "0101 0011", 1, 1, "*"),
    row(Row::Ttcfs, "TTCFS", "", "0101 0010", 1, 1, "*"),
    row(Row::Tzs, "TZS", "", "0101 1011", 1, 1, "*"),
    // (12) Interrupt control
    row(Row::Cil, "CIL", "r", "0110 0011 11rr rrrr", 2, 2, "1"),
    row(Row::Dicil, "DICIL", "r", "0110 0011 10rr rrrr", 2, 2, "1"),
    row(Row::Eicil, "EICIL", "r", "0110 0011 01rr rrrr", 2, 2, "1"),
    row(Row::Exae, "EXAE", "", "0111 0101", 1, 1, "1"),
    row(Row::Rti, "RTI", "", "0100 1101", 1, 2, "*"),
    // (13) CPU control
    row(Row::Nop, "NOP", "", "0101 0110", 1, 1, "-"),
    // (14) Timer/counter, data pointer and stack pointer control
    row(Row::Ldadpl, "LDADPL", "", "0110 1010 1111 1100", 2, 2, "1"),
    row(Row::Ldadpm, "LDADPM", "", "0110 1010 1111 1101", 2, 2, "1"),
    row(Row::Ldadph, "LDADPH", "", "0110 1010 1111 1110", 2, 2, "1"),
    row(Row::Ldasp, "LDASP", "", "0110 1010 1111 1111", 2, 2, "1"),
    row(Row::Ldatal, "LDATAL", "", "0110 1010 1111 0100", 2, 2, "1"),
    row(Row::Ldatam, "LDATAM", "", "0110 1010 1111 0101", 2, 2, "1"),
    row(Row::Ldatah, "LDATAH", "", "0110 1010 1111 0110", 2, 2, "1"),
    row(Row::Ldatbl, "LDATBL", "", "0110 1010 1111 1000", 2, 2, "1"),
    row(Row::Ldatbm, "LDATBM", "", "0110 1010 1111 1001", 2, 2, "1"),
    row(Row::Ldatbh, "LDATBH", "", "0110 1010 1111 1010", 2, 2, "1"),
    row(Row::Stadpl, "STADPL", "", "0110 1001 1111 1100", 2, 2, "1"),
    row(Row::Stadpm, "STADPM", "", "0110 1001 1111 1101", 2, 2, "1"),
    row(Row::Stadph, "STADPH", "", "0110 1001 1111 1110", 2, 2, "1"),
    row(Row::Stasp, "STASP", "", "0110 1001 1111 1111", 2, 2, "1"),
    row(Row::Statal, "STATAL", "", "0110 1001 1111 0100", 2, 2, "1"),
    row(Row::Statam, "STATAM", "", "0110 1001 1111 0101", 2, 2, "1"),
    row(Row::Statah, "STATAH", "", "0110 1001 1111 0110", 2, 2, "1"),
    row(Row::Statbl, "STATBL", "", "0110 1001 1111 1000", 2, 2, "1"),
    row(Row::Statbm, "STATBM", "", "0110 1001 1111 1001", 2, 2, "1"),
    row(Row::Statbh, "STATBH", "", "0110 1001 1111 1010", 2, 2, "1"),
];

impl Row {
    /// The row of a number, if it is one of 1 to 107.
    pub fn from_number(number: u8) -> Option<Row> {
        let place = (number as usize).checked_sub(1)?;
        Some(SHEET.get(place)?.row)
    }

    pub fn number(self) -> u8 {
        self as u8
    }

    pub fn sheet(self) -> &'static SheetRow {
        &SHEET[self as usize - 1]
    }

    pub fn bytes(self) -> u16 {
        self.sheet().bytes as u16
    }

    pub fn cycles(self) -> u32 {
        self.sheet().cycles as u32
    }

    /// "In the S column, 1 sets SF."
    pub fn sets_status(self) -> bool {
        self.sheet().status == "1"
    }
}

#[cfg(test)]
mod tests {
    use super::*;

    #[test]
    fn rows_stand_at_their_numbers() {
        for (place, sheet) in SHEET.iter().enumerate() {
            assert_eq!(sheet.row.number() as usize, place + 1);
            assert_eq!(Row::from_number(sheet.row.number()), Some(sheet.row));
        }
        assert_eq!(Row::from_number(0), None);
        assert_eq!(Row::from_number(108), None);
    }

    #[test]
    fn the_code_is_as_long_as_the_bytes_say() {
        for sheet in &SHEET {
            let bits = sheet.code.chars().filter(|c| *c != ' ').count();
            assert_eq!(bits, 8 * sheet.bytes as usize, "{}", sheet.mnemonic);
        }
    }
}
