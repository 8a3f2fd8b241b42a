//! Looking up a name in one block, and in two.
use super::block::headers;
use crate::answers::{Found, Setting};
use crate::refusal::Refusal;

/// The value of the first header with this name. The whole block has to be well formed.
pub fn find(block: &[u8], name: &[u8]) -> Result<Found, Refusal> {
    let mut found = Found { there: 0, start: 0, len: 0 };
    for header in headers(block) {
        let header = header?;
        if found.there == 0 && header.name == name {
            found = Found { there: 1, start: header.value_start as u64, len: header.value.len() as u64 };
        }
    }
    Ok(found)
}

/// The value in the connection facts, or else in the site settings. Both have to be well formed.
pub fn setting(facts: &[u8], site: &[u8], name: &[u8]) -> Result<Setting, Refusal> {
    let in_facts = find(facts, name)?;
    let in_site = find(site, name)?;
    let (origin, found) = match (in_facts.there, in_site.there) {
        (1, _) => (1, in_facts),
        (_, 1) => (2, in_site),
        _ => (0, in_site),
    };
    Ok(Setting { origin, start: found.start, len: found.len })
}
