//! Script response heads: the server's action for a script's whole output.
use super::bytes::decimal;
use super::edition::Edition;
use super::fields::Field;
use super::target;
use crate::answers::{Action, DOCUMENT, REDIRECT, REDIRECT_WITH_DOCUMENT, SERVE};
use crate::refusal::*;

/// What the rules say of the fields of a head.
#[derive(Default)]
struct Head<'a> {
    lines: usize,
    content_type: Option<&'a [u8]>,
    status: Option<&'a [u8]>,
    /// Start and bytes of the Location value.
    location: Option<(usize, &'a [u8])>,
    /// One of the three fields was there a second time.
    repeated: bool,
    /// The length of the head with its empty line.
    len: usize,
}

impl<'a> Head<'a> {
    /// Reads the lines up to the first empty one. Every fault of the form is 24.
    fn of(script: &'a [u8]) -> Result<Self, Refusal> {
        let window = &script[..script.len().min(MAX_HEAD)];
        let mut head = Head::default();
        loop {
            let rest = &window[head.len..];
            let line_len = rest.iter().position(|&byte| byte == b'\n').ok_or(RESPONSE)?;
            let line = rest[..line_len].strip_suffix(b"\r").unwrap_or(&rest[..line_len]);
            let start = head.len;
            head.len += line_len + 1;
            if line.is_empty() {
                return Ok(head);
            }
            head.lines += 1;
            let field = Field::of(line, true).filter(|_| head.lines <= MAX_FIELDS).ok_or(RESPONSE)?;
            head.take(start, field);
        }
    }

    fn take(&mut self, line_start: usize, field: Field<'a>) {
        if field.is("Content-Type") {
            self.repeated |= self.content_type.replace(field.value).is_some();
        } else if field.is("Status") {
            self.repeated |= self.status.replace(field.value).is_some();
        } else if field.is("Location") {
            self.repeated |= self.location.replace((line_start + field.value_start, field.value)).is_some();
        }
    }

    /// The status, where there is one; 25 where it is malformed or out of range.
    fn status(&self) -> Result<Option<u64>, Refusal> {
        let Some(text) = self.status else {
            return Ok(None);
        };
        let code = match text.get(3) {
            None | Some(b' ') => text.get(..3).and_then(decimal),
            Some(_) => None,
        };
        code.filter(|code| (200..=599).contains(code)).ok_or(CONTRADICTION).map(Some)
    }
}

/// The action for a script's whole output, under the edition of this number and for a request of this method.
pub fn response(edition: u64, method: &[u8], script: &[u8]) -> Result<Action, Refusal> {
    let edition = Edition::of(edition)?;
    let head = Head::of(script)?;
    if head.location.is_some() && !edition.allows_location(method) {
        return Err(CONTRADICTION);
    }
    act(&head, script)
}

/// The action for an output with this head, the request's method aside.
fn act(head: &Head, script: &[u8]) -> Result<Action, Refusal> {
    let status = head.status()?;
    let is_empty = |value: Option<&[u8]>| value.is_some_and(|bytes| bytes.is_empty());
    if head.repeated || is_empty(head.content_type) {
        return Err(CONTRADICTION);
    }
    let no_body = script.len() == head.len;
    let alone = status.is_none() && head.content_type.is_none() && no_body;
    let (action, status) = match head.location {
        Some((_, location)) if location.starts_with(b"/") => {
            let is_local = target::decode(location, &mut [0; MAX_TARGET]).is_some();
            if !is_local || !alone || head.lines != 1 {
                return Err(CONTRADICTION);
            }
            (SERVE, 0)
        }
        Some((_, location)) => redirect(location, status, head.content_type.is_some(), alone)?,
        None if head.content_type.is_some() => (DOCUMENT, status.unwrap_or(200)),
        None => return Err(CONTRADICTION),
    };
    let (start, location) = head.location.unwrap_or((0, b""));
    let numbers = [start, location.len(), head.len, script.len() - head.len].map(|number| number as u64);
    let [location_start, location_len, body_start, body_len] = numbers;
    Ok(Action { action, status, location_start, location_len, body_start, body_len })
}

/// Action and status for a Location that is not local.
fn redirect(location: &[u8], status: Option<u64>, document: bool, alone: bool) -> Result<(u64, u64), Refusal> {
    if !is_absolute(location) {
        return Err(CONTRADICTION);
    }
    match status {
        None if alone => Ok((REDIRECT, 302)),
        Some(code @ (301 | 302 | 303 | 307 | 308)) if document => Ok((REDIRECT_WITH_DOCUMENT, code)),
        _ => Err(CONTRADICTION),
    }
}

/// A scheme, a colon, and one or more bytes, all of 33 to 126.
fn is_absolute(location: &[u8]) -> bool {
    let Some(colon) = location.iter().position(|&byte| byte == b':') else {
        return false;
    };
    let (scheme, rest) = (&location[..colon], &location[colon + 1..]);
    let is_scheme_byte = |byte: u8| byte.is_ascii_alphanumeric() || matches!(byte, b'+' | b'-' | b'.');
    scheme.first().is_some_and(u8::is_ascii_alphabetic)
        && scheme.iter().all(|&byte| is_scheme_byte(byte))
        && !rest.is_empty()
        && rest.iter().all(|byte| matches!(byte, 33..=126))
}
