//! The proved calls' answers: `Proved::new()` and `answers(Device, &[Call]) -> Vec<Answer>`. See the crate archives for the two ways.

/// A call, with the buffer that it may change.
pub enum Call {
    Read {
        text: Vec<u8>,
        image: Vec<u8>,
    },
    Write {
        image: Vec<u8>,
        text: Vec<u8>,
    },
    /// The text in chunks of these lengths, up to the call that tells an answer; then the end, where none did.
    Chunks {
        text: Vec<u8>,
        image: Vec<u8>,
        lengths: Vec<u32>,
    },
    /// An empty chunk with these bytes as the state: only whether they are refused is asked, and that a refusal changes nothing.
    State {
        state: Vec<u8>,
        image: Vec<u8>,
    },
}

#[derive(Debug, PartialEq, Eq)]
pub struct Answer {
    pub number: u8,
    /// 0 where the call gives none.
    pub line: usize,
    /// The chunk, from 1, after which the answer was told; 0 at the end, and of the other calls.
    pub told: usize,
    /// Of chunks, that one more chunk and one more end gave the same answer and changed nothing; of a state, that a refusal changed nothing.
    pub repeated: bool,
    pub buffer: Vec<u8>,
}

impl Call {
    pub fn steady(&self) -> &[u8] {
        match self {
            Call::Read { text, .. } | Call::Chunks { text, .. } => text,
            Call::Write { image, .. } => image,
            Call::State { state, .. } => state,
        }
    }

    pub fn changing(&self) -> &[u8] {
        match self {
            Call::Read { image, .. } | Call::Chunks { image, .. } | Call::State { image, .. } => image,
            Call::Write { text, .. } => text,
        }
    }

    pub fn lengths(&self) -> &[u32] {
        match self {
            Call::Chunks { lengths, .. } => lengths,
            Call::Read { .. } | Call::Write { .. } | Call::State { .. } => &[],
        }
    }
}

#[cfg(linked)]
mod linked;
#[cfg(linked)]
pub use linked::Proved;

#[cfg(not(linked))]
mod served;
#[cfg(not(linked))]
pub use served::Proved;
