//! Targets: the path, decoded, and the query.
use super::bytes::{hex, is_plain_target};
use crate::refusal::{MAX_SLASHES, MAX_TARGET};

pub struct Target<'t, 'p> {
    /// The decoded path.
    pub path: &'p [u8],
    /// The bytes after the first `?`, as they are; empty where there is none.
    pub query: &'t [u8],
}

/// The parts of a target; none where a rule is broken. The decoded path is put into the buffer.
pub fn decode<'t, 'p>(target: &'t [u8], buffer: &'p mut [u8; MAX_TARGET]) -> Option<Target<'t, 'p>> {
    if target.len() > MAX_TARGET || !target.starts_with(b"/") {
        return None;
    }
    let path_len = target.iter().position(|&byte| byte == b'?').unwrap_or(target.len());
    let query = target.get(path_len + 1..).unwrap_or(b"");
    let len = decode_path(&target[..path_len], buffer)?;
    let path = &buffer[..len];
    (is_path(path) && is_query(query)).then_some(Target { path, query })
}

/// Puts the decoded path into the buffer and gives its length. An escape must not give a `/`.
fn decode_path(path: &[u8], buffer: &mut [u8; MAX_TARGET]) -> Option<usize> {
    let mut at = 0;
    let mut len = 0;
    while at < path.len() {
        let (byte, used) = unit(&path[at..])?;
        if byte == b'/' && used > 1 {
            return None;
        }
        buffer[len] = byte;
        len += 1;
        at += used;
    }
    Some(len)
}

/// The byte that a plain byte or an escape at the front stands for, and how many bytes that takes.
fn unit(text: &[u8]) -> Option<(u8, usize)> {
    match *text {
        [b'%', high, low, ..] => Some((hex(high)? * 16 + hex(low)?, 3)),
        [byte, ..] if is_plain_target(byte) => Some((byte, 1)),
        _ => None,
    }
}

/// The rules of a decoded path. Since no escape gives a `/`, its slashes are those of the target.
fn is_path(path: &[u8]) -> bool {
    let slashes = path.iter().filter(|&&byte| byte == b'/').count();
    slashes <= MAX_SLASHES
        && path.iter().all(|&byte| byte > 31 && byte != 127)
        && path.split(|&byte| byte == b'/').all(|segment| segment != b"." && segment != b"..")
}

fn is_query(query: &[u8]) -> bool {
    let mut rest = query;
    while let [first, ..] = *rest {
        let used = if first == b'?' { Some(1) } else { unit(rest).map(|(_, used)| used) };
        let Some(used) = used else {
            return false;
        };
        rest = &rest[used..];
    }
    true
}
