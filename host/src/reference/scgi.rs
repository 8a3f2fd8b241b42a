//! SCGI requests: the reader and the writer.
use super::block::{has_equal_names, parse, value_of};
use super::bytes::{decimal, Digits};
use crate::answers::Places;
use crate::refusal::*;

/// The netstring's length and the place after its colon. The first fault from the left decides.
fn read_length(bytes: &[u8]) -> Result<(usize, usize), Refusal> {
    let mut length = 0;
    for (at, &byte) in bytes.iter().enumerate() {
        if byte == b':' && at > 0 {
            return Ok((length, at + 1));
        }
        let after_zero = at > 0 && length == 0;
        if !byte.is_ascii_digit() || after_zero {
            return Err(LENGTH);
        }
        length = length * 10 + usize::from(byte - b'0');
        if length > MAX_BLOCK {
            return Err(BLOCK_LONG);
        }
    }
    Err(CUT)
}

/// The body length that a block states. The tests are over the whole block, one after the other.
pub fn check_block(block: &[u8]) -> Result<usize, Refusal> {
    let headers = parse(block)?;
    if headers.len() > MAX_HEADERS {
        return Err(HEADERS);
    }
    if has_equal_names(&headers) {
        return Err(TWICE);
    }
    let first = headers.first().filter(|header| header.name == b"CONTENT_LENGTH");
    let stated = first.and_then(|header| decimal(header.value)).ok_or(FIRST)?;
    if stated > MAX_BODY as u64 {
        return Err(BODY_LONG);
    }
    match value_of(&headers, b"SCGI") {
        Some(b"1") => Ok(stated as usize),
        _ => Err(SCGI),
    }
}

/// Where the block and the body of the first request lie. Bytes after it are not looked at.
pub fn read(bytes: &[u8]) -> Result<Places, Refusal> {
    let (block_len, block_start) = read_length(bytes)?;
    let comma = block_start + block_len;
    match bytes.get(comma) {
        None => return Err(CUT),
        Some(b',') => {}
        Some(_) => return Err(COMMA),
    }
    let body_len = check_block(&bytes[block_start..comma])?;
    let body_start = comma + 1;
    let used = body_start + body_len;
    if bytes.len() < used {
        return Err(CUT);
    }
    Ok(Places::of([block_start, block_len, body_start, body_len, used].map(|number| number as u64)))
}

/// Writes the block as netstring and the body; gives the number of bytes.
pub fn write(block: &[u8], body: &[u8], out: &mut [u8]) -> Result<usize, Refusal> {
    if block.len() > MAX_BLOCK {
        return Err(BLOCK_LONG);
    }
    if check_block(block)? != body.len() {
        return Err(BODY_LENGTH);
    }
    let digits = Digits::of(block.len());
    let parts = [digits.text(), b":", block, b",", body];
    let len = parts.iter().map(|part| part.len()).sum();
    let mut rest = out.get_mut(..len).ok_or(ROOM)?;
    for part in parts {
        let (place, after) = rest.split_at_mut(part.len());
        place.copy_from_slice(part);
        rest = after;
    }
    Ok(len)
}
