//! Blocks: zero or more of name, NUL, value, NUL; names are not empty, values may be.
use crate::refusal::{Refusal, BLOCK};

#[derive(Clone, Copy)]
pub struct Header<'a> {
    pub name: &'a [u8],
    pub value: &'a [u8],
    /// Where the value starts in the block.
    pub value_start: usize,
}

/// Goes over the headers of a block. Where the block is malformed, the last item is the refusal.
pub struct Headers<'a> {
    block: &'a [u8],
    at: usize,
}

pub fn headers(block: &[u8]) -> Headers<'_> {
    Headers { block, at: 0 }
}

impl<'a> Headers<'a> {
    /// The bytes up to the next NUL, and past it.
    fn text(&mut self) -> Option<&'a [u8]> {
        let rest = &self.block[self.at..];
        let len = rest.iter().position(|&byte| byte == 0)?;
        self.at += len + 1;
        Some(&rest[..len])
    }

    fn header(&mut self) -> Option<Header<'a>> {
        let name = self.text()?;
        if name.is_empty() {
            return None;
        }
        let value_start = self.at;
        let value = self.text()?;
        Some(Header { name, value, value_start })
    }
}

impl<'a> Iterator for Headers<'a> {
    type Item = Result<Header<'a>, Refusal>;

    fn next(&mut self) -> Option<Self::Item> {
        if self.at == self.block.len() {
            return None;
        }
        let header = self.header().ok_or(BLOCK);
        if header.is_err() {
            self.at = self.block.len();
        }
        Some(header)
    }
}

/// The headers of a block, or 5.
pub fn parse(block: &[u8]) -> Result<Vec<Header<'_>>, Refusal> {
    headers(block).collect()
}

/// Whether two headers have equal names.
pub fn has_equal_names(headers: &[Header]) -> bool {
    headers.iter().enumerate().any(|(at, header)| headers[..at].iter().any(|earlier| earlier.name == header.name))
}

/// The value of the first header with this name.
pub fn value_of<'a>(headers: &[Header<'a>], name: &[u8]) -> Option<&'a [u8]> {
    headers.iter().find(|header| header.name == name).map(|header| header.value)
}
