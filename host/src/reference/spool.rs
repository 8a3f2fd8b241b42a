//! Spools: SCGI requests end to end.
use super::scgi::read;
use crate::answers::{SpoolEnd, CUT, FULL, REFUSED, WHOLE};
use crate::refusal;

/// Stores each request's byte length and says how the spool ends.
pub fn spool(bytes: &[u8], lengths: &mut [u64]) -> SpoolEnd {
    let mut rest = bytes;
    let mut stored = 0;
    let (ending, number) = loop {
        if rest.is_empty() {
            break (WHOLE, 0);
        }
        let used = match read(rest) {
            Ok(places) => places.used,
            Err(refusal::CUT) => break (CUT, 0),
            Err(number) => break (REFUSED, u64::from(number)),
        };
        let Some(entry) = lengths.get_mut(stored) else {
            break (FULL, 0);
        };
        *entry = used;
        stored += 1;
        rest = &rest[used as usize..];
    };
    SpoolEnd { stored: stored as u64, ending, number }
}
