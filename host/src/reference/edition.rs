//! The editions: the texts that a pool's scripts may be written to.
use crate::answers::{DRAFT_1996, RFC_3875};
use crate::refusal::*;

pub enum Edition {
    Rfc,
    Draft,
}

impl Edition {
    /// The edition of a number; 20 where there is none.
    pub fn of(number: u64) -> Result<Self, Refusal> {
        match number {
            RFC_3875 => Ok(Edition::Rfc),
            DRAFT_1996 => Ok(Edition::Draft),
            _ => Err(LENT),
        }
    }

    /// Whether a script may send Location for a request of this method: under the draft for GET and HEAD alone, byte by byte.
    pub fn allows_location(&self, method: &[u8]) -> bool {
        match self {
            Edition::Rfc => true,
            Edition::Draft => method == b"GET" || method == b"HEAD",
        }
    }
}
