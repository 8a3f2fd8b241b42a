//! The step from an HTTP request to SCGI bytes.
use super::bytes::Digits;
use super::fields::Fields;
use super::head::{head_len, Lines, RequestLine};
use super::lent::Lent;
use super::target;
use super::variables::{Count, Cursor, Sink, Variables};
use crate::answers::Forwarded;
use crate::calls::Blocks;
use crate::refusal::*;

/// Writes the SCGI request for the HTTP request at the start of the bytes. The refusals stand in the rules' order.
pub fn forward(blocks: Blocks, http: &[u8], out: &mut [u8]) -> Result<Forwarded, Refusal> {
    let lent = Lent::of(blocks.facts, blocks.site, blocks.mounts)?;
    let head_len = head_len(http)?;
    let mut lines = Lines { rest: &http[..head_len - 2] };
    let line = RequestLine::of(lines.next().unwrap_or(b""))?;
    let mut buffer = [0; MAX_TARGET];
    let target = target::decode(line.target, &mut buffer).ok_or(TARGET)?;
    let fields = Fields::of(lines)?;
    let (stated, content_type) = fields.content(line.is_1_1())?;
    let mount = lent.mount(target.path).ok_or(MOUNT)?;
    if stated > mount.limit {
        return Err(BODY_LONG);
    }
    let body_len = stated as usize;
    let body = http[head_len..].get(..body_len).ok_or(CUT)?;
    let variables = Variables { lent: &lent, line: &line, target: &target, mount: mount.name, content_type, body_len, fields: &fields };
    let written = write_request(&variables, body, out)?;
    let numbers = [written, mount.pool_start, mount.pool.len(), head_len + body_len];
    Ok(Forwarded::of(numbers.map(|number| number as u64)))
}

/// Writes the variables as netstring and the body; gives the number of bytes.
fn write_request(variables: &Variables, body: &[u8], out: &mut [u8]) -> Result<usize, Refusal> {
    let mut count = Count(0);
    variables.put(&mut count);
    let block_len = count.0;
    let digits = Digits::of(block_len);
    let len = digits.text().len() + 1 + block_len + 1 + body.len();
    let mut cursor = Cursor { out: out.get_mut(..len).ok_or(ROOM)?, at: 0 };
    cursor.put(digits.text());
    cursor.put(b":");
    variables.put(&mut cursor);
    cursor.put(b",");
    cursor.put(body);
    Ok(len)
}
