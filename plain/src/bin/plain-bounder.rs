//! `plain-bounder [--device NAME [--p3 N]] [--count ADDRESS=K].. IMAGE [ADDRESS]`: the handler bound from an address in hexadecimal, or of
//! each interrupt entry, on the EM73P982 with P3 in decimal, else 0; with counts of rows, "executed at most k times in one activation". It answers as docs/PROGRAMS.md says of the bounder; sentences in quotation marks are of it.

use plain::{
    bound, bound_counted, notation, place_in_image, read, Bound, Count, Counted, Device, Row, MOST_PATH_BYTES,
};
use std::io::{self, BufWriter, Write};

const USAGE: &str = "usage: plain-bounder [--device NAME [--p3 N]] [--count ADDRESS=K].. IMAGE [ADDRESS]";

/// The entries, and their names on both devices.
const ENTRIES: [(u32, [&str; 2]); 5] = [
    (0x0002, ["INT0", "INT0"]),
    (0x0006, ["TRGA", "TRGA"]),
    (0x0008, ["TRGB", "TRGB"]),
    (0x000A, ["TBI", "TBI"]),
    (0x000C, ["INT1", "SPI"]),
];

fn main() {
    let words: Vec<String> = std::env::args().skip(1).collect();
    let Some((device, p3, words)) = understood(&words) else {
        eprintln!("{USAGE}");
        return;
    };
    let Some((counts, words)) = counts_of(words) else {
        eprintln!("{USAGE}");
        return;
    };
    // An image that cannot be read is refused as one of a wrong size.
    let read = words.first().map(std::fs::read);
    if !matches!(read, Some(Ok(_))) {
        eprintln!("{USAGE}");
    }
    let image = read.and_then(Result::ok).unwrap_or_default();
    let program = Program { device, image, p3, counts };
    // A reader that has gone away is no fault of the bound.
    let _ = program.answer(words.get(1..).unwrap_or_default());
}

/// The device, P3 and the words besides.
fn understood(words: &[String]) -> Option<(Device, u32, &[String])> {
    let (device, words) = Device::chosen(words)?;
    match words {
        [option, ..] if option == "--p3" && device == Device::Em73862 => None,
        [option, p3, words @ ..] if option == "--p3" => Some((device, parse_number(p3)?, words)),
        [option] if option == "--p3" => None,
        _ => Some((device, 0, words)),
    }
}

/// The counts, by address, and the words besides.
fn counts_of(words: &[String]) -> Option<(Vec<Count>, &[String])> {
    let mut counts = Vec::new();
    let mut words = words;
    while let [option, rest @ ..] = words {
        if option != "--count" {
            break;
        }
        let [count, rest @ ..] = rest else { return None };
        let (address, most) = count.split_once('=')?;
        counts.push(Count { address: hexadecimal(address)?, most: parse_number(most)? });
        words = rest;
    }
    counts.sort_by_key(|count| count.address);
    Some((counts, words))
}

/// Decimal digits; the greatest number for any that is over it.
fn parse_number(word: &str) -> Option<u32> {
    let digits = !word.is_empty() && word.bytes().all(|byte| byte.is_ascii_digit());
    digits.then(|| word.parse().unwrap_or(u32::MAX))
}

/// "ADDRESS is one to four hexadecimal digits of either case, nothing else": another word is as an address over 1FFF.
fn parse_address(word: &str) -> u32 {
    hexadecimal(word).unwrap_or(u32::MAX)
}

/// One to four hexadecimal digits of either case.
fn hexadecimal(word: &str) -> Option<u32> {
    let digits = (1..=4).contains(&word.len()) && word.bytes().all(|byte| byte.is_ascii_hexdigit());
    digits.then(|| u32::from_str_radix(word, 16).ok()).flatten()
}

struct Program {
    device: Device,
    image: Vec<u8>,
    p3: u32,
    counts: Vec<Count>,
}

/// What the bound answers, and its two paths.
struct Bounded {
    answer: Counted,
    path: Vec<u16>,
    deep: Vec<u16>,
}

impl Program {
    /// Answers to the words after the image.
    fn answer(&self, words: &[String]) -> io::Result<()> {
        let mut output = BufWriter::new(io::stdout().lock());
        let address = words.first().map(|word| parse_address(word));
        let bounded = self.bounded(address.unwrap_or(0));
        match bounded.answer {
            Counted::AsToday(Bound::ImageSize | Bound::P3 | Bound::AddressOver8191) => {
                writeln!(output, "{}", in_short(bounded.answer))?
            }
            _ if words.len() > 1 => eprintln!("{USAGE}"),
            _ if address.is_some() || bounded.answer == Counted::Counts => self.tell(&mut output, &bounded)?,
            _ => {
                for (entry, names) in ENTRIES {
                    let answer = in_short(self.bounded(entry).answer);
                    writeln!(output, "{entry:04X} {} {answer}", names[self.device as usize])?;
                }
            }
        }
        output.flush()
    }

    fn bounded(&self, address: u32) -> Bounded {
        let [mut path, mut deep] = [vec![0; MOST_PATH_BYTES], vec![0; MOST_PATH_BYTES]];
        let answer = if self.counts.is_empty() {
            Counted::AsToday(bound(self.device, &self.image, self.p3, address, &mut path, &mut deep))
        } else {
            bound_counted(self.device, &self.image, self.p3, address, &self.counts, &mut path, &mut deep)
        };
        if let Counted::AsToday(Bound::Cycles { path_bytes, deep_bytes, .. }) = answer {
            path.truncate(path_bytes);
            deep.truncate(deep_bytes);
        }
        let addresses = |path: &[u8]| path.chunks(2).map(|pair| u16::from_le_bytes([pair[0], pair[1]])).collect();
        Bounded { answer, path: addresses(&path), deep: addresses(&deep) }
    }

    fn tell(&self, output: &mut impl Write, bounded: &Bounded) -> io::Result<()> {
        let Counted::AsToday(Bound::Cycles { most, depth, .. }) = bounded.answer else {
            writeln!(output, "{}", in_short(bounded.answer))?;
            return writeln!(output, "{}", self.in_words(bounded.answer));
        };
        writeln!(output, "N {most}")?;
        let mut total = 0;
        for address in &bounded.path {
            let (line, row) = self.line(*address);
            total += row.cycles();
            writeln!(output, "{line} {total:>5}")?;
        }
        writeln!(output, "depth {depth}")?;
        let mut open = 0;
        for address in &bounded.deep {
            let (line, row) = self.line(*address);
            open += matches!(row, Row::Lcall | Row::Scall) as u32;
            open -= (row == Row::Ret) as u32;
            writeln!(output, "{line} {open:>5}")?;
        }
        Ok(())
    }

    /// The lister's line of a row that is on a path, and the row.
    fn line(&self, address: u16) -> (String, Row) {
        let insn = read(self.device, &self.image, self.p3, address as usize).expect("a path has rows alone");
        let row = Row::from_number(insn.row).expect("what is read is a row");
        let byte = |offset| format!("{:02X}", self.image[place_in_image(self.p3 as u8, address + offset)]);
        let bytes: Vec<String> = (0..row.bytes()).map(byte).collect();
        let words = notation(insn, address);
        (format!("{address:04X}  {:<8}  {words:<16} {} {}", bytes.join(" "), row.bytes(), row.cycles()), row)
    }

    /// "a second line with plain words"
    fn in_words(&self, answer: Counted) -> &'static str {
        match answer {
            Counted::AsToday(bound) => self.bound_in_words(bound),
            Counted::Counts => "the counts are not as they should be: at most 16, each address once and at most 1FFF, each count from 1 to 65535",
            Counted::NoPath => "under the counts no path leads to RTI",
            Counted::TooManyTurns => "the counts are too large together: the handler would be unrolled into more than 32768 places",
        }
    }

    fn bound_in_words(&self, answer: Bound) -> &'static str {
        match (answer, self.device) {
            (Bound::Excluded(_), Device::Em73862) => {
                "an excluded instruction can be reached: RTI in a called routine, RET outside of one, a store to SP, an unassigned code or one that passes the end of the image, a row that sets EI or a row that writes P16"
            }
            (Bound::Excluded(_), Device::Em73P982) => {
                "an excluded instruction can be reached: RTI in a called routine, RET outside of one, a store to SP, an unassigned code or one that passes the end of the image, a row that sets EI or a row that writes P16 or P3"
            }
            (Bound::Repetition(_), _) => "a repetition can be reached: a path can come back to where it was",
            (Bound::Recursion(_), _) => "a routine can reach a call of itself",
            (Bound::TooManyCycles, _) => "the most cycles are over 65535",
            _ => "",
        }
    }
}

/// The answer without its paths.
fn in_short(answer: Counted) -> String {
    let number = answer.number();
    let Counted::AsToday(bound) = answer else {
        return format!("refused {number:02}");
    };
    match bound {
        Bound::Excluded(lowest) | Bound::Repetition(lowest) | Bound::Recursion(lowest) => {
            format!("refused {number:02} {lowest:04X}")
        }
        Bound::Cycles { most, depth, .. } => format!("N {most} depth {depth}"),
        Bound::ImageSize | Bound::P3 | Bound::AddressOver8191 | Bound::TooManyCycles | Bound::PathBuffer(_) => {
            format!("refused {number:02}")
        }
    }
}
