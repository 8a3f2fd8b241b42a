//! The head of an HTTP request: its end, its lines, the request line.
use super::bytes::is_token;
use crate::refusal::*;

/// The length of the head with its empty line.
pub fn head_len(bytes: &[u8]) -> Result<usize, Refusal> {
    let window = &bytes[..bytes.len().min(MAX_HEAD)];
    match window.windows(4).position(|four| four == b"\r\n\r\n") {
        Some(at) => Ok(at + 4),
        None if bytes.len() >= MAX_HEAD => Err(HEAD_LONG),
        None => Err(CUT),
    }
}

/// Lines that each end in CR LF, without their ends.
pub struct Lines<'a> {
    pub rest: &'a [u8],
}

impl<'a> Iterator for Lines<'a> {
    type Item = &'a [u8];

    fn next(&mut self) -> Option<&'a [u8]> {
        let len = self.rest.windows(2).position(|two| two == b"\r\n")?;
        let line = &self.rest[..len];
        self.rest = &self.rest[len + 2..];
        Some(line)
    }
}

pub struct RequestLine<'a> {
    pub method: &'a [u8],
    pub target: &'a [u8],
    pub version: &'a [u8],
}

impl<'a> RequestLine<'a> {
    /// Parts the line; the target is judged by its own rules.
    pub fn of(line: &'a [u8]) -> Result<Self, Refusal> {
        let mut parts = line.split(|&byte| byte == b' ');
        let (Some(method), Some(target), Some(version), None) = (parts.next(), parts.next(), parts.next(), parts.next()) else {
            return Err(REQUEST_LINE);
        };
        let is_method = (1..=MAX_METHOD).contains(&method.len()) && method.iter().all(|&byte| is_token(byte));
        if !is_method || !is_version(version) {
            return Err(REQUEST_LINE);
        }
        if version != b"HTTP/1.0" && version != b"HTTP/1.1" {
            return Err(VERSION);
        }
        Ok(RequestLine { method, target, version })
    }

    pub fn is_1_1(&self) -> bool {
        self.version == b"HTTP/1.1"
    }
}

fn is_version(text: &[u8]) -> bool {
    matches!(text, [b'H', b'T', b'T', b'P', b'/', b'0'..=b'9', b'.', b'0'..=b'9'])
}
