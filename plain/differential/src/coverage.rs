//! What the calls met, counted, and how often each must have come: so that the comparison cannot go blind.

use crate::calls::{Answer, Call, Kind, Paths};
use crate::layout::machine_of;
use plain::{is_valid, numbers, place_in_image, read, Device, Insn, Machine, Mode, Row, MOST_FRAMES, SHEET};

const NUMBERS: usize = 36;

/// Each answer's number, and how often it comes at least in a whole comparison (with the factor 1).
const AT_LEAST: [(Kind, &[(u8, u64)]); Kind::ALL.len()] = [
    (Kind::Step, &STEP_AT_LEAST),
    (Kind::Look, &[(0, 30_000), (2, 3_000), (3, 3_000)]),
    (Kind::Act, &ACT_AT_LEAST),
    (Kind::Run, &RUN_AT_LEAST),
    (Kind::Why, &[(0, 80_000), (1, 4_000), (2, 2_000), (3, 1_000)]),
    (Kind::Display, &[(0, 30_000), (2, 10_000), (5, 10_000)]),
    (Kind::Read, &[(0, 60_000), (1, 500), (20, 5_000), (30, 1_500), (35, 3_000)]),
    (Kind::Write, &[(0, 10_000), (11, 50_000)]),
    (Kind::Bound, &BOUND_AT_LEAST),
    (Kind::Length, &[(0, 50_000), (1, 500), (20, 5_000), (30, 1_000), (35, 1_500)]),
    (Kind::Row, &[(0, 50_000), (1, 500), (20, 5_000), (30, 1_000), (35, 1_500)]),
    (Kind::Notation, &[(0, 50_000), (1, 500), (20, 5_000), (30, 1_000), (35, 1_500)]),
    (Kind::Fresh, &[(0, 30_000), (2, 10_000)]),
    (Kind::Reset, &[(0, 30_000), (2, 30_000)]),
    (Kind::IsValid, &[(0, 30_000), (2, 30_000)]),
];
const BOUND_AT_LEAST: [(u8, u64); 8] =
    [(0, 60_000), (1, 500), (20, 500), (21, 30_000), (22, 15_000), (23, 25_000), (24, 10_000), (25, 500)];
const STEP_AT_LEAST: [(u8, u64); 10] = [
    (0, 400_000),
    (1, 5_000),
    (2, 5_000),
    (3, 5_000),
    (30, 3_000),
    (31, 5_000),
    (32, 5_000),
    (33, 5_000),
    (34, 500),
    (35, 10_000),
];
const ACT_AT_LEAST: [(u8, u64); 9] =
    [(0, 40_000), (1, 1_000), (2, 1_000), (30, 300), (31, 500), (32, 500), (33, 500), (34, 50), (35, 2_000)];
const RUN_AT_LEAST: [(u8, u64); 11] = [
    (0, 20_000),
    (1, 300),
    (2, 1_000),
    (3, 3_000),
    (4, 50),
    (30, 1_000),
    (31, 1_000),
    (32, 1_000),
    (33, 1_000),
    (34, 300),
    (35, 2_500),
];

/// What comes of the EM73P982 besides: 2 for the P3 that goes in.
const P982_AT_LEAST: [(Kind, u8, u64); 5] = [
    (Kind::Read, numbers::RECORD_RANGE, 1_000),
    (Kind::Bound, numbers::RECORD_RANGE, 100),
    (Kind::Length, numbers::RECORD_RANGE, 1_000),
    (Kind::Row, numbers::RECORD_RANGE, 1_000),
    (Kind::Notation, numbers::RECORD_RANGE, 1_000),
];

/// The ports that a device's rows can write, each written so often at least by single steps.
const WRITABLE: [u8; 11] = [4, 8, 9, 16, 23, 24, 25, 27, 28, 29, 30];
const P982_WRITABLE: [u8; 15] = [3, 4, 5, 6, 8, 9, 16, 17, 23, 24, 25, 27, 28, 29, 30];
const EACH_PORT: u64 = 300;

/// Each row is executed so often at least by single steps that do not stop.
const EACH_ROW: u64 = 300;

/// What single steps do besides executing a row.
#[derive(Clone, Copy, Debug, PartialEq, Eq)]
enum Event {
    AcceptsInt0,
    AcceptsTrga,
    AcceptsTrgb,
    AcceptsTbi,
    AcceptsInt1,
    EntersSleep,
    EntersHold,
    WaitsOn,
    WakesBy0,
    WakesBy1,
    WakesBy2,
    WakesFromHold,
    WakesByLevel0,
    WakesByLevel1,
    WakesByLevel2,
    WakesByLevelFromHold,
    WakesByHeldKey,
    SetsIl5,
    SetsIl3,
    SetsIl2,
    SetsIl1,
    SetsIl0,
    CountsTa,
    CountsTb,
    TimeBaseWraps,
    PcWraps,
    NothingIsDue,
    Int0IsDue,
    TrgaIsDue,
    TrgbIsDue,
    TbiIsDue,
    Int1IsDue,
    ExecutesBank0,
    ExecutesBank1,
    ExecutesBank2,
    ExecutesBank3,
    MovesItsWindow,
    CrossesBanks,
    ReadsTable1,
    ReadsTable2,
    ReadsTable3,
    SpeechStays,
    SpeechAsleep,
    P8Falls,
    StopsByP3,
    RefusedByP3,
}

/// What is due now and was not, by its number in the record.
const DUE: [Event; 6] =
    [Event::NothingIsDue, Event::Int0IsDue, Event::TrgaIsDue, Event::TrgbIsDue, Event::TbiIsDue, Event::Int1IsDue];

const EVENTS: [(Event, &str); 46] = [
    (Event::AcceptsInt0, "accepts INT0"),
    (Event::AcceptsTrga, "accepts TRGA"),
    (Event::AcceptsTrgb, "accepts TRGB"),
    (Event::AcceptsTbi, "accepts TBI"),
    (Event::AcceptsInt1, "accepts INT1"),
    (Event::EntersSleep, "enters sleep"),
    (Event::EntersHold, "enters hold"),
    (Event::WaitsOn, "waits on"),
    (Event::WakesBy0, "wakes from sleep 0"),
    (Event::WakesBy1, "wakes from sleep 1"),
    (Event::WakesBy2, "wakes from sleep 2"),
    (Event::WakesFromHold, "wakes from hold"),
    (Event::WakesByLevel0, "wakes by level from sleep 0"),
    (Event::WakesByLevel1, "wakes by level from sleep 1"),
    (Event::WakesByLevel2, "wakes by level from sleep 2"),
    (Event::WakesByLevelFromHold, "wakes by level from hold"),
    (Event::WakesByHeldKey, "wakes by a held key at once"),
    (Event::SetsIl5, "sets IL5"),
    (Event::SetsIl3, "sets IL3"),
    (Event::SetsIl2, "sets IL2"),
    (Event::SetsIl1, "sets IL1"),
    (Event::SetsIl0, "sets IL0"),
    (Event::CountsTa, "counts TA"),
    (Event::CountsTb, "counts TB"),
    (Event::TimeBaseWraps, "wraps the time base"),
    (Event::PcWraps, "wraps the PC"),
    (Event::NothingIsDue, "makes nothing due"),
    (Event::Int0IsDue, "makes INT0 due"),
    (Event::TrgaIsDue, "makes TRGA due"),
    (Event::TrgbIsDue, "makes TRGB due"),
    (Event::TbiIsDue, "makes TBI due"),
    (Event::Int1IsDue, "makes INT1 due"),
    (Event::ExecutesBank0, "executes from bank 0"),
    (Event::ExecutesBank1, "executes from bank 1"),
    (Event::ExecutesBank2, "executes from bank 2"),
    (Event::ExecutesBank3, "executes from bank 3"),
    (Event::MovesItsWindow, "writes another P3 from the window"),
    (Event::CrossesBanks, "executes a code across 1000h"),
    (Event::ReadsTable1, "reads a table in bank 1"),
    (Event::ReadsTable2, "reads a table in bank 2"),
    (Event::ReadsTable3, "reads a table in bank 3"),
    (Event::SpeechStays, "sets IL0 by a digit that stays 1"),
    (Event::SpeechAsleep, "waits on with the fourth digit 1"),
    (Event::P8Falls, "sees P8.0 fall and leaves IL0"),
    (Event::StopsByP3, "stops with 34 by P3"),
    (Event::RefusedByP3, "is refused with 2 by P3"),
];

/// The events from here on are the EM73P982's alone; what is INT1 before is SPI there.
const P982_EVENTS: usize = Event::ExecutesBank0 as usize;

/// Each event comes so often at least in single steps.
const EACH_EVENT: u64 = 300;

/// So many runs at least take all the frames that a run can have.
const LONGEST_RUNS: u64 = 10;

/// So many bounds at least meet a code that passes the end, as the lowest excluded place.
const BOUNDS_PAST_END: u64 = 2_500;

/// What a bound tells besides: each comes so often at least.
const BOUNDS: [&str; 6] = [
    "has depth 0",
    "has depth 1",
    "has depth 2",
    "has depth 3 or more",
    "has two different paths",
    "is short of bytes for the depth's path alone",
];
const PATHS_APART: usize = 4;
const DEEP_SHORT: usize = 5;
const EACH_BOUND: u64 = 4_000;

/// What a why says, by its case from 1 on, and the last one by its source from IL0 up, with none waiting and with some: each comes so often at least.
const REASONS: [&str; 5] = ["waits", "has EI clear", "has nothing latched", "has all masked", "has no stack level"];
const SOURCES: [&str; 6] = ["INT1", "TBI", "TRGB", "TRGA", "", "INT0"];
const EACH_REASON: u64 = 500;

pub struct Coverage {
    device: Device,
    answers: [[u64; NUMBERS]; Kind::ALL.len()],
    rows: [u64; 108],
    /// How often each port was written.
    ports: [u64; 32],
    events: [u64; EVENTS.len()],
    reasons: [u64; REASONS.len()],
    /// By the source, with none waiting and with some.
    accepted: [[u64; 2]; SOURCES.len()],
    longest_runs: u64,
    bounds_past_end: u64,
    bounds: [u64; BOUNDS.len()],
    /// The record after a step that entered sleep or hold, to see whether the next step wakes it.
    just_entered: Vec<u8>,
}

impl Coverage {
    pub fn new(device: Device) -> Coverage {
        Coverage {
            device,
            answers: [[0; NUMBERS]; Kind::ALL.len()],
            rows: [0; 108],
            ports: [0; 32],
            events: [0; EVENTS.len()],
            reasons: [0; REASONS.len()],
            accepted: [[0; 2]; SOURCES.len()],
            longest_runs: 0,
            bounds_past_end: 0,
            bounds: [0; BOUNDS.len()],
            just_entered: Vec::new(),
        }
    }

    pub fn count(&mut self, call: &Call, answer: &Answer) {
        self.answers[call.kind() as usize][answer.number as usize] += 1;
        if call.kind() == Kind::Run && answer.values[0] as usize == MOST_FRAMES {
            self.longest_runs += 1;
        }
        if call.kind() == Kind::Why && answer.number == 0 {
            self.count_why(answer.values[0] as usize, answer.values[1] as usize, answer.values[2]);
        }
        if let Call::Bound { image, p3, paths, .. } = call {
            self.count_bound(image, *p3, paths, answer);
            let excluded = answer.number == numbers::EXCLUDED;
            let lowest = answer.values[0] as usize;
            let past_end = excluded && read(self.device, image, *p3, lowest) == Err(numbers::PAST_END);
            self.bounds_past_end += past_end as u64;
        }
        if let Call::Step { image, wake, record, .. } = call {
            let (Some(before), Some(after)) = (machine_of(record), machine_of(&answer.buffer)) else { return };
            if answer.number == 0 {
                self.count_step(image, &before, &after);
                let by_level = wakes_by_level(*wake, &before, &after);
                self.count_levels(by_level, record, &before);
                if before.mode == Mode::Running && after.mode != Mode::Running {
                    self.just_entered.clone_from(&answer.buffer);
                }
            } else if self.device == Device::Em73P982 {
                self.count_p3(image, &before, answer.number);
            }
        }
    }

    fn count_bound(&mut self, image: &[u8], p3: u32, paths: &Paths, answer: &Answer) {
        let value = answer.values[0] as usize;
        match answer.number {
            numbers::NONE => {
                self.bounds[answer.values[1].min(3) as usize] += 1;
                let mut buffers = answer.buffer.clone();
                let (path, deep) = paths.apart(&mut buffers);
                let until_rti = |path| until_rti(self.device, image, p3, path);
                self.bounds[PATHS_APART] += (until_rti(path) != until_rti(deep)) as u64;
            }
            // N's buffer holds more bytes than are needed, so that the depth's is meant.
            numbers::PATH_BUFFER => self.bounds[DEEP_SHORT] += (paths.rooms()[0] >= value) as u64,
            _ => {}
        }
    }

    fn count_why(&mut self, holds: usize, source: usize, sources: u32) {
        match self.reasons.get_mut(holds - 1) {
            Some(count) => *count += 1,
            None => self.accepted[source][(sources != 0) as usize] += 1,
        }
    }

    /// Each thing that a why says, with its count. Nothing waits behind the last source.
    fn reasons(&self) -> Vec<(String, u64)> {
        let mut found: Vec<(String, u64)> =
            REASONS.iter().zip(self.reasons).map(|(name, count)| (name.to_string(), count)).collect();
        for (latch, name) in SOURCES.iter().enumerate().filter(|(latch, _)| *latch != 4) {
            let name = self.in_its_words(name);
            found.push((format!("accepts {name} alone"), self.accepted[latch][0]));
            if latch > 0 {
                found.push((format!("accepts {name} while others wait"), self.accepted[latch][1]));
            }
        }
        found
    }

    /// Whether P3 is what stops a step, or refuses its record.
    fn count_p3(&mut self, image: &[u8], before: &Machine, number: u8) {
        let insn = read(self.device, image, before.ports.p3 as u32, before.pc as usize);
        let writes_p3 = insn.is_ok_and(|insn| port_written(insn, before.lr) == Some(3));
        self.happens(Event::StopsByP3, number == numbers::RESERVED_SETTING && writes_p3);
        let mut with_another = before.clone();
        with_another.ports.p3 = 0;
        self.happens(Event::RefusedByP3, number == numbers::RECORD_RANGE && is_valid(self.device, &with_another));
    }

    pub fn asked(&self, kind: Kind) -> u64 {
        self.answers[kind as usize].iter().sum()
    }

    fn happens(&mut self, event: Event, whether: bool) {
        self.events[event as usize] += whether as u64;
    }

    fn count_step(&mut self, image: &[u8], before: &Machine, after: &Machine) {
        if before.mode != Mode::Running {
            self.count_waiting(before, after);
            return;
        }
        self.count_speech(before, after);
        self.happens(DUE[after.due as usize], after.due != before.due);
        let set = after.il & !before.il;
        for (bit, event) in
            [(5, Event::SetsIl5), (3, Event::SetsIl3), (2, Event::SetsIl2), (1, Event::SetsIl1), (0, Event::SetsIl0)]
        {
            self.happens(event, set >> bit & 1 != 0);
        }
        self.happens(Event::TimeBaseWraps, after.time_base < before.time_base && after.mode == Mode::Running);
        // Only an acceptance lowers SP and clears EI.
        if before.ei && !after.ei && after.sp + 1 == before.sp {
            self.count_acceptance(after.pc);
            return;
        }
        self.happens(Event::EntersSleep, after.mode == Mode::Sleep);
        self.happens(Event::EntersHold, after.mode == Mode::Hold);
        if let Ok(insn) = read(self.device, image, before.ports.p3 as u32, before.pc as usize) {
            self.rows[insn.row as usize] += 1;
            self.count_banks(insn, before, after);
            if let Some(port) = port_written(insn, before.lr) {
                self.ports[port as usize] += 1;
            }
            let row = Row::from_number(insn.row);
            self.happens(Event::CountsTa, after.ta != before.ta && !row.is_some_and(stores_ta));
            self.happens(Event::CountsTb, after.tb != before.tb && !row.is_some_and(stores_tb));
            self.happens(Event::PcWraps, row.is_some_and(|row| before.pc + row.bytes() >= 8192));
        }
    }

    fn count_acceptance(&mut self, pc: u16) {
        for (entry, event) in [
            (0x02, Event::AcceptsInt0),
            (0x06, Event::AcceptsTrga),
            (0x08, Event::AcceptsTrgb),
            (0x0A, Event::AcceptsTbi),
            (0x0C, Event::AcceptsInt1),
        ] {
            self.happens(event, pc == entry);
        }
    }

    /// Where a row stands, and where a table read goes.
    fn count_banks(&mut self, insn: Insn, before: &Machine, after: &Machine) {
        let p3 = before.ports.p3;
        let bank_of = |address| place_in_image(p3, address) / 4096;
        let banks = [Event::ExecutesBank0, Event::ExecutesBank1, Event::ExecutesBank2, Event::ExecutesBank3];
        self.happens(banks[bank_of(before.pc)], true);
        self.happens(Event::MovesItsWindow, before.pc >= 0x1000 && (after.ports.p3 ^ p3) & 3 != 0);
        let row = Row::from_number(insn.row);
        let ends = before.pc + row.map_or(1, Row::bytes) - 1;
        self.happens(Event::CrossesBanks, before.pc < 0x1000 && ends >= 0x1000);
        let tables = [Event::ReadsTable1, Event::ReadsTable2, Event::ReadsTable3];
        let reads_a_table = matches!(row, Some(Row::Ldax | Row::Ldaxi));
        self.happens(tables[bank_of(0x1000 + before.dp) - 1], reads_a_table);
    }

    fn count_speech(&mut self, before: &Machine, after: &Machine) {
        let (last, frame) = (before.last_frame, after.last_frame);
        let sets_il0 = before.il & 1 == 0 && after.il & 1 != 0;
        self.happens(Event::SpeechStays, sets_il0 && last.speech == 1 && frame.speech == 1);
        let falls = last.p8 & !frame.p8 & 1 != 0 && frame.speech == 0;
        self.happens(Event::P8Falls, falls && before.il & 1 == 0 && after.il & 1 == 0);
    }

    fn count_waiting(&mut self, before: &Machine, after: &Machine) {
        self.happens(Event::SpeechAsleep, after.last_frame.speech == 1 && before.il & 1 == 0);
        self.happens(Event::WaitsOn, after.mode != Mode::Running);
        if after.mode == Mode::Running {
            let wakes = [Event::WakesBy0, Event::WakesBy1, Event::WakesBy2, Event::WakesFromHold];
            self.happens(wakes[before.ports.p16 as usize & 3], true);
        }
    }

    fn count_levels(&mut self, by_level: bool, record: &[u8], before: &Machine) {
        let wakes = [Event::WakesByLevel0, Event::WakesByLevel1, Event::WakesByLevel2, Event::WakesByLevelFromHold];
        self.happens(wakes[before.ports.p16 as usize & 3], by_level);
        self.happens(Event::WakesByHeldKey, by_level && record == self.just_entered);
    }

    /// The numbers that came of each call, then the rows and events that came least.
    pub fn report(&self) -> Vec<String> {
        let mut lines = Vec::new();
        for kind in Kind::ALL.into_iter().filter(|kind| kind.is_of(self.device)) {
            let answers = self.answers[kind as usize].iter().enumerate().filter(|(_, count)| **count > 0);
            let words: Vec<String> = answers.map(|(number, count)| format!("{number}: {count}")).collect();
            lines.push(format!("{} answered {}", kind.name(), words.join(", ")));
        }
        if let Some(least) = SHEET.iter().min_by_key(|sheet| self.rows[sheet.row.number() as usize]) {
            lines.push(format!(
                "each row was executed at least {} times ({})",
                self.rows[least.row.number() as usize],
                least.mnemonic
            ));
        }
        let words: Vec<String> =
            self.events().map(|(event, name)| format!("{name} {}", self.events[event as usize])).collect();
        lines.push(format!("a step {}", words.join(", ")));
        let words: Vec<String> =
            self.writable().iter().map(|port| format!("P{port} {}", self.ports[*port as usize])).collect();
        lines.push(format!("a step writes {}", words.join(", ")));
        let words: Vec<String> = self.reasons().iter().map(|(name, count)| format!("{name} {count}")).collect();
        lines.push(format!("a record asked why {}", words.join(", ")));
        lines.push(format!("a run made {MOST_FRAMES} steps {} times", self.longest_runs));
        lines.push(format!("a bound met a code that passes the end {} times", self.bounds_past_end));
        let words: Vec<String> =
            BOUNDS.iter().zip(self.bounds).map(|(name, count)| format!("{name} {count}")).collect();
        lines.push(format!("a bound {}", words.join(", ")));
        lines
    }

    /// Those of the device, with their names.
    fn events(&self) -> impl Iterator<Item = (Event, String)> + '_ {
        let count = match self.device {
            Device::Em73862 => P982_EVENTS,
            Device::Em73P982 => EVENTS.len(),
        };
        EVENTS.iter().take(count).map(|(event, name)| (*event, self.in_its_words(name)))
    }

    /// What is INT1 is SPI on the EM73P982.
    fn in_its_words(&self, name: &str) -> String {
        match self.device {
            Device::Em73862 => name.to_string(),
            Device::Em73P982 => name.replace("INT1", "SPI"),
        }
    }

    fn writable(&self) -> &'static [u8] {
        match self.device {
            Device::Em73862 => &WRITABLE,
            Device::Em73P982 => &P982_WRITABLE,
        }
    }

    /// Each number that must come of the device's calls, and how often.
    fn at_least(&self) -> Vec<(Kind, u8, u64)> {
        let both =
            AT_LEAST.iter().flat_map(|(kind, least)| least.iter().map(|(number, least)| (*kind, *number, *least)));
        let both = both.filter(|(kind, _, _)| kind.is_of(self.device));
        match self.device {
            Device::Em73862 => both.collect(),
            Device::Em73P982 => both.chain(P982_AT_LEAST).collect(),
        }
    }

    /// What came less often than it must.
    pub fn shortfalls(&self) -> Vec<String> {
        let mut found = Vec::new();
        for (kind, number, least) in self.at_least() {
            let count = self.answers[kind as usize][number as usize];
            if count < least {
                found.push(format!("{} answered {number} only {count} times, not {least}", kind.name()));
            }
        }
        for port in self.writable() {
            let count = self.ports[*port as usize];
            if count < EACH_PORT {
                found.push(format!("P{port} was written only {count} times, not {EACH_PORT}"));
            }
        }
        for sheet in &SHEET {
            let count = self.rows[sheet.row.number() as usize];
            if count < EACH_ROW {
                found.push(format!("{} was executed only {count} times, not {EACH_ROW}", sheet.mnemonic));
            }
        }
        for (event, name) in self.events() {
            let count = self.events[event as usize];
            if count < EACH_EVENT {
                found.push(format!("a step {name} only {count} times, not {EACH_EVENT}"));
            }
        }
        for (name, count) in self.reasons().into_iter().filter(|(_, count)| *count < EACH_REASON) {
            found.push(format!("a record asked why {name} only {count} times, not {EACH_REASON}"));
        }
        if self.longest_runs < LONGEST_RUNS {
            found.push(format!("a run made {MOST_FRAMES} steps only {} times, not {LONGEST_RUNS}", self.longest_runs));
        }
        found.extend(self.bound_shortfalls());
        found
    }

    fn bound_shortfalls(&self) -> Vec<String> {
        let mut found = Vec::new();
        if self.bounds_past_end < BOUNDS_PAST_END {
            let count = self.bounds_past_end;
            found.push(format!("a bound met a code that passes the end only {count} times, not {BOUNDS_PAST_END}"));
        }
        for (name, count) in BOUNDS.iter().zip(self.bounds).filter(|(_, count)| *count < EACH_BOUND) {
            found.push(format!("a bound {name} only {count} times, not {EACH_BOUND}"));
        }
        found
    }
}

/// The addresses at the beginning of a buffer, up to that of an RTI: a path has none before its end.
fn until_rti(device: Device, image: &[u8], p3: u32, buffer: &[u8]) -> Vec<u16> {
    let mut path = Vec::new();
    for pair in buffer.chunks_exact(2) {
        let address = u16::from_le_bytes([pair[0], pair[1]]);
        path.push(address);
        if read(device, image, p3, address as usize).is_ok_and(|insn| insn.row == Row::Rti.number()) {
            break;
        }
    }
    path
}

/// It wakes, and no enabled pin fell.
fn wakes_by_level(wake: u8, before: &Machine, after: &Machine) -> bool {
    let falling = before.last_frame.wake_pins() & !after.last_frame.wake_pins();
    before.mode != Mode::Running && after.mode == Mode::Running && falling & wake == 0
}

/// The port that a row writes, sets or clears, by its name or by LR: PORT[LR3-2 + 4].
fn port_written(insn: Insn, lr: u8) -> Option<u8> {
    match Row::from_number(insn.row)? {
        Row::Out => Some(insn.b as u8),
        Row::Outa | Row::Outm | Row::Sep | Row::Clp => Some(insn.a as u8),
        Row::Sepl | Row::Clpl => Some((lr >> 2) + 4),
        _ => None,
    }
}

fn stores_ta(row: Row) -> bool {
    matches!(row, Row::Statal | Row::Statam | Row::Statah)
}

fn stores_tb(row: Row) -> bool {
    matches!(row, Row::Statbl | Row::Statbm | Row::Statbh)
}

#[cfg(test)]
mod tests {
    use super::*;

    #[test]
    fn events_stand_at_their_numbers() {
        for (place, (event, _)) in EVENTS.iter().enumerate() {
            assert_eq!(*event as usize, place);
        }
    }
}
