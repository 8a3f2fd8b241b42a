//! What the gateway is lent: connection facts, site settings, mounts.
use super::block::{has_equal_names, parse, value_of, Header};
use super::bytes::decimal;
use crate::refusal::*;

/// The values that the gateway takes from the three blocks.
pub struct Lent<'a> {
    pub server_name: &'a [u8],
    pub server_port: &'a [u8],
    pub server_software: &'a [u8],
    pub remote_addr: &'a [u8],
    /// AUTH_TYPE and REMOTE_USER.
    pub user: Option<(&'a [u8], &'a [u8])>,
    mounts: Vec<Mount<'a>>,
}

/// A path that requests may go to, the pool that takes them, and the most bytes that a body may have there.
pub struct Mount<'a> {
    pub name: &'a [u8],
    pub pool: &'a [u8],
    /// Where the pool starts in the mounts block.
    pub pool_start: usize,
    pub limit: u64,
}

impl<'a> Lent<'a> {
    /// The values, or 20 for any breach of the rules.
    pub fn of(facts: &'a [u8], site: &'a [u8], mounts: &'a [u8]) -> Result<Self, Refusal> {
        Self::values(facts, site, mounts).ok_or(LENT)
    }

    fn values(facts: &'a [u8], site: &'a [u8], mounts: &'a [u8]) -> Option<Self> {
        let facts = lent_block(facts, MAX_FACTS)?;
        let site = lent_block(site, MAX_FACTS)?;
        let mounts = all_mounts(mounts)?;
        let server = |name| not_empty(value_of(&facts, name).or_else(|| value_of(&site, name)));
        let server_port = server(b"SERVER_PORT")?;
        if !is_port(server_port) {
            return None;
        }
        let user = match (value_of(&facts, b"AUTH_TYPE"), value_of(&facts, b"REMOTE_USER")) {
            (None, None) => None,
            (kind, name) => Some((not_empty(kind)?, not_empty(name)?)),
        };
        Some(Lent {
            server_name: server(b"SERVER_NAME")?,
            server_port,
            server_software: server(b"SERVER_SOFTWARE")?,
            remote_addr: not_empty(value_of(&facts, b"REMOTE_ADDR"))?,
            user,
            mounts,
        })
    }

    /// The longest mount that fits the decoded path.
    pub fn mount(&self, path: &[u8]) -> Option<&Mount<'a>> {
        self.mounts.iter().filter(|mount| fits(mount.name, path)).max_by_key(|mount| mount.name.len())
    }
}

impl<'a> Mount<'a> {
    /// The mount of a header. Its value is the pool, or the pool, `;` and the limit in digits.
    fn of(header: &Header<'a>) -> Option<Self> {
        let Header { name, value, value_start } = *header;
        let (pool, limit) = match value.iter().position(|&byte| byte == b';') {
            Some(at) => (&value[..at], decimal(&value[at + 1..])?),
            None => (value, MAX_BODY as u64),
        };
        let is_name = name.starts_with(b"/") && !name.ends_with(b"/");
        let mount = Mount { name, pool, pool_start: value_start, limit };
        (is_name && !pool.is_empty() && limit <= MAX_BODY as u64).then_some(mount)
    }
}

fn lent_block(block: &[u8], most: usize) -> Option<Vec<Header<'_>>> {
    if block.len() > most {
        return None;
    }
    parse(block).ok().filter(|headers| !has_equal_names(headers))
}

fn not_empty(value: Option<&[u8]>) -> Option<&[u8]> {
    value.filter(|bytes| !bytes.is_empty())
}

fn all_mounts(block: &[u8]) -> Option<Vec<Mount<'_>>> {
    let headers = lent_block(block, MAX_MOUNTS)?;
    if headers.len() > MAX_MOUNT_COUNT {
        return None;
    }
    headers.iter().map(Mount::of).collect()
}

/// 1 to 65535 without a leading zero.
fn is_port(text: &[u8]) -> bool {
    !text.starts_with(b"0") && decimal(text).is_some_and(|port| port <= 65_535)
}

fn fits(mount: &[u8], path: &[u8]) -> bool {
    path.strip_prefix(mount).is_some_and(|rest| rest.is_empty() || rest.starts_with(b"/"))
}
