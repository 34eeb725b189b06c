//! The calls of include/em73862.h, include/em73862_pane.h and include/em73p982.h as values: what goes in, and what comes back.

use plain::Device;
use std::sync::Arc;

/// Many calls share an image.
pub type Image = Arc<[u8]>;

/// P3 goes in only on the EM73P982, and is 0 on the EM73862. The writer serves both devices.
#[derive(Clone, Debug)]
pub enum Call {
    Fresh { device: Device, record: Vec<u8> },
    Reset { device: Device, record: Vec<u8> },
    IsValid { device: Device, record: Vec<u8> },
    Step { device: Device, image: Image, wake: u8, sound: u8, record: Vec<u8>, frame: Vec<u8> },
    Look { device: Device, wake: u8, sound: u8, record: Vec<u8>, frame: Vec<u8> },
    Act { device: Device, image: Image, wake: u8, sound: u8, record: Vec<u8> },
    Run { device: Device, image: Image, wake: u8, sound: u8, record: Vec<u8>, frames: Vec<u8> },
    Why { device: Device, image: Image, wake: u8, sound: u8, record: Vec<u8>, frame: Vec<u8> },
    Display { device: Device, record: Vec<u8>, dots: Vec<u8> },
    Read { device: Device, image: Image, p3: u32, address: u32 },
    Write { row: u8, a: u16, b: u8 },
    Bound { device: Device, image: Image, p3: u32, address: u32, paths: Paths },
    Length { device: Device, image: Image, p3: u32, address: u32 },
    Row { device: Device, image: Image, p3: u32, address: u32 },
    Notation { device: Device, image: Image, p3: u32, address: u32, text: Vec<u8> },
}

/// What stands before, between and behind the buffers that a call may change.
const GAP: [u8; 16] = [0xA5; 16];

/// The two buffers of a bound in one: N's path, a gap that must stay, and the depth's path.
#[derive(Clone, Debug)]
pub struct Paths {
    path_length: usize,
    bytes: Vec<u8>,
}

impl Paths {
    pub fn new(path: &[u8], deep: &[u8]) -> Paths {
        Paths { path_length: path.len(), bytes: [path, &GAP, deep].concat() }
    }

    /// The lengths of both.
    pub fn rooms(&self) -> [usize; 2] {
        [self.path_length, self.bytes.len() - self.path_length - GAP.len()]
    }

    /// All the bytes, as they go into a call and as they may come out of one.
    pub fn bytes(&self) -> &[u8] {
        &self.bytes
    }

    /// Both buffers in bytes that are laid out like these.
    pub fn apart<'a>(&self, bytes: &'a mut [u8]) -> (&'a mut [u8], &'a mut [u8]) {
        let (path, others) = bytes.split_at_mut(self.path_length);
        (path, &mut others[GAP.len()..])
    }
}

/// What the calls are counted by.
#[derive(Clone, Copy, Debug, PartialEq, Eq)]
pub enum Kind {
    Fresh,
    Reset,
    IsValid,
    Step,
    Look,
    Act,
    Run,
    Display,
    Read,
    Write,
    Bound,
    Length,
    Row,
    Notation,
    Why,
}

impl Kind {
    pub const ALL: [Kind; 15] = [
        Kind::Step,
        Kind::Look,
        Kind::Act,
        Kind::Run,
        Kind::Why,
        Kind::Display,
        Kind::Read,
        Kind::Write,
        Kind::Bound,
        Kind::Length,
        Kind::Row,
        Kind::Notation,
        Kind::Fresh,
        Kind::Reset,
        Kind::IsValid,
    ];

    pub fn name(self) -> &'static str {
        match self {
            Kind::Fresh => "fresh",
            Kind::Reset => "reset",
            Kind::IsValid => "is_valid",
            Kind::Step => "step",
            Kind::Look => "look",
            Kind::Act => "act",
            Kind::Run => "run",
            Kind::Display => "display",
            Kind::Read => "read",
            Kind::Write => "write",
            Kind::Bound => "bound",
            Kind::Length => "length",
            Kind::Row => "row",
            Kind::Notation => "notation",
            Kind::Why => "why",
        }
    }

    /// Whether the device has a call of this kind.
    pub fn is_of(self, device: Device) -> bool {
        device == Device::Em73862 || self != Kind::Write
    }

    /// What a number of its calls is called.
    pub fn plural(self) -> &'static str {
        match self {
            Kind::Fresh => "fresh",
            Kind::Reset => "resets",
            Kind::IsValid => "is_valid",
            Kind::Step => "steps",
            Kind::Look => "looks",
            Kind::Act => "acts",
            Kind::Run => "runs",
            Kind::Display => "displays",
            Kind::Read => "reads",
            Kind::Write => "writes",
            Kind::Bound => "bounds",
            Kind::Length => "lengths",
            Kind::Row => "rows",
            Kind::Notation => "notations",
            Kind::Why => "whys",
        }
    }

    /// The numbers that a call gives back besides its answer's number, in its header's order.
    pub fn values(self) -> &'static [&'static str] {
        match self {
            Kind::Fresh | Kind::Reset | Kind::IsValid | Kind::Display => &[],
            Kind::Step | Kind::Look | Kind::Act => &["cycles"],
            Kind::Run => &["steps", "cycles"],
            Kind::Read => &["row", "a", "b"],
            Kind::Write => &["length", "b0", "b1", "b2"],
            Kind::Bound => &["value", "depth"],
            Kind::Length => &["bytes", "cycles"],
            Kind::Row => &["row", "first", "second", "goes", "bytes", "cycles"],
            Kind::Notation => &["length"],
            Kind::Why => &["holds", "source", "sources"],
        }
    }
}

pub const MOST_VALUES: usize = 6;

/// What comes back. Values that a call does not have are 0.
#[derive(Clone, Debug, PartialEq, Eq)]
pub struct Answer {
    pub number: u8,
    pub values: [u32; MOST_VALUES],
    /// The buffer that the call may change, as it was left: the record, the dots, the paths or the text.
    pub buffer: Vec<u8>,
    /// Whether all other bytes stayed: the image, the steady buffer, and what is just before and behind `buffer`.
    pub others_kept: bool,
}

impl Call {
    pub fn kind(&self) -> Kind {
        match self {
            Call::Fresh { .. } => Kind::Fresh,
            Call::Reset { .. } => Kind::Reset,
            Call::IsValid { .. } => Kind::IsValid,
            Call::Step { .. } => Kind::Step,
            Call::Look { .. } => Kind::Look,
            Call::Act { .. } => Kind::Act,
            Call::Run { .. } => Kind::Run,
            Call::Display { .. } => Kind::Display,
            Call::Read { .. } => Kind::Read,
            Call::Write { .. } => Kind::Write,
            Call::Bound { .. } => Kind::Bound,
            Call::Length { .. } => Kind::Length,
            Call::Row { .. } => Kind::Row,
            Call::Notation { .. } => Kind::Notation,
            Call::Why { .. } => Kind::Why,
        }
    }

    pub fn device(&self) -> Device {
        match self {
            Call::Fresh { device, .. }
            | Call::Reset { device, .. }
            | Call::IsValid { device, .. }
            | Call::Step { device, .. }
            | Call::Look { device, .. }
            | Call::Act { device, .. }
            | Call::Run { device, .. }
            | Call::Why { device, .. }
            | Call::Display { device, .. }
            | Call::Read { device, .. }
            | Call::Bound { device, .. }
            | Call::Length { device, .. }
            | Call::Row { device, .. }
            | Call::Notation { device, .. } => *device,
            Call::Write { .. } => Device::Em73862,
        }
    }

    pub fn image(&self) -> Option<&Image> {
        match self {
            Call::Step { image, .. }
            | Call::Act { image, .. }
            | Call::Run { image, .. }
            | Call::Why { image, .. }
            | Call::Read { image, .. }
            | Call::Bound { image, .. }
            | Call::Length { image, .. }
            | Call::Row { image, .. }
            | Call::Notation { image, .. } => Some(image),
            _ => None,
        }
    }

    /// The buffer of the answer as it goes in. Those of is_valid and why are in it too, though only lent to be read.
    pub fn changing(&self) -> &[u8] {
        match self {
            Call::Fresh { record, .. } | Call::Reset { record, .. } | Call::IsValid { record, .. } => record,
            Call::Step { record, .. } | Call::Look { record, .. } => record,
            Call::Act { record, .. } | Call::Run { record, .. } | Call::Why { record, .. } => record,
            Call::Display { dots, .. } => dots,
            Call::Bound { paths, .. } => paths.bytes(),
            Call::Notation { text, .. } => text,
            Call::Read { .. } | Call::Write { .. } | Call::Length { .. } | Call::Row { .. } => &[],
        }
    }

    /// The other buffer besides the image, which no call may change.
    pub fn steady(&self) -> &[u8] {
        match self {
            Call::Step { frame, .. } | Call::Look { frame, .. } | Call::Why { frame, .. } => frame,
            Call::Run { frames, .. } => frames,
            Call::Display { record, .. } => record,
            _ => &[],
        }
    }

    /// About how many bytes this call takes until it is answered.
    pub fn size(&self) -> usize {
        64 + 3 * self.changing().len() + self.steady().len()
    }
}
