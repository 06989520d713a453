//! Why a call with passes was refused.

use std::error::Error;
use std::fmt;

/// Why there was no pass.
#[derive(Clone, Copy, Debug, PartialEq, Eq)]
pub enum PassError {
    /// Every pass that the primitive may have is in use; of a barrier: every party was given out.
    Crowded,
    /// There is no memory for another one.
    Memory,
}

/// Why a try got nothing.
#[derive(Clone, Copy, Debug, PartialEq, Eq)]
pub enum TryError {
    /// No permit was free.
    NoneFree,
    /// One was free, and another caller was first; the state that was found.
    Contended(i64),
}

impl fmt::Display for PassError {
    fn fmt(&self, f: &mut fmt::Formatter<'_>) -> fmt::Result {
        match self {
            PassError::Crowded => f.write_str("every pass is in use"),
            PassError::Memory => f.write_str("there is no memory for another pass"),
        }
    }
}

impl fmt::Display for TryError {
    fn fmt(&self, f: &mut fmt::Formatter<'_>) -> fmt::Result {
        match self {
            TryError::NoneFree => f.write_str("nothing was free"),
            TryError::Contended(state) => {
                write!(f, "another caller was first, and left the state at {state}")
            }
        }
    }
}

impl Error for PassError {}
impl Error for TryError {}
