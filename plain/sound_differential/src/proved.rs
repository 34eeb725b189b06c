//! The proved calls' answers: `Proved::new()` and `answers(&[Call]) -> Vec<Answer>`. See the crate archives for the two ways.

#[cfg(linked)]
mod linked;
#[cfg(linked)]
pub use linked::Proved;

#[cfg(not(linked))]
mod served;
#[cfg(not(linked))]
pub use served::Proved;
