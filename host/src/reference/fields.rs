//! Field lines, of requests and of script responses.
use super::bytes::{blank_start, decimal, is_token, is_value, trim_end};
use crate::refusal::*;

#[derive(Clone, Copy)]
pub struct Field<'a> {
    pub name: &'a [u8],
    /// The value without the spaces and tabs at both ends.
    pub value: &'a [u8],
    /// Where the value starts in the line.
    pub value_start: usize,
}

impl<'a> Field<'a> {
    /// Parts a line at its first colon. `_` in a name is allowed in script responses only.
    pub fn of(line: &'a [u8], underscore: bool) -> Option<Self> {
        let colon = line.iter().position(|&byte| byte == b':')?;
        let name = &line[..colon];
        let is_name_byte = |byte| is_token(byte) && (underscore || byte != b'_');
        if name.is_empty() || !name.iter().all(|&byte| is_name_byte(byte)) {
            return None;
        }
        let after = &line[colon + 1..];
        let blank = blank_start(after);
        let value = trim_end(&after[blank..]);
        let field = Field { name, value, value_start: colon + 1 + blank };
        value.iter().all(|&byte| is_value(byte)).then_some(field)
    }

    pub fn is(&self, name: &str) -> bool {
        self.name.eq_ignore_ascii_case(name.as_bytes())
    }
}

/// The fields of a request.
pub struct Fields<'a> {
    pub list: Vec<Field<'a>>,
    /// For each field the place of the first one with its name, letter case aside.
    pub first: Vec<usize>,
}

impl<'a> Fields<'a> {
    pub fn of(lines: impl Iterator<Item = &'a [u8]>) -> Result<Self, Refusal> {
        let mut list = Vec::with_capacity(16);
        for line in lines {
            list.push(Field::of(line, false).ok_or(FIELD)?);
        }
        if list.len() > MAX_FIELDS {
            return Err(FIELD);
        }
        let same_name = |a: &Field, b: &Field| a.name.eq_ignore_ascii_case(b.name);
        let first_of = |(at, field)| list[..at].iter().position(|earlier| same_name(earlier, field)).unwrap_or(at);
        let first = list.iter().enumerate().map(first_of).collect();
        Ok(Fields { list, first })
    }

    /// The values of a field name, letter case aside.
    fn named<'n>(&'n self, name: &'n str) -> impl Iterator<Item = &'a [u8]> + 'n {
        self.list.iter().filter(move |field| field.is(name)).map(|field| field.value)
    }

    /// The value of a field that may be there once; 17 where it is there more often.
    fn at_most_once(&self, name: &str) -> Result<Option<&'a [u8]>, Refusal> {
        let mut values = self.named(name);
        let first = values.next();
        if values.next().is_some() {
            return Err(CONTENT);
        }
        Ok(first)
    }

    /// The content length and type, after the rules of Host, of these two, and of Transfer-Encoding.
    pub fn content(&self, is_1_1: bool) -> Result<(u64, Option<&'a [u8]>), Refusal> {
        let hosts = self.named("Host").count();
        if hosts > 1 || (is_1_1 && hosts == 0) {
            return Err(HOST);
        }
        let length = match self.at_most_once("Content-Length")? {
            Some(text) => decimal(text).ok_or(CONTENT)?,
            None => 0,
        };
        let kind = self.at_most_once("Content-Type")?;
        if self.named("Transfer-Encoding").next().is_some() {
            return Err(TRANSFER_ENCODING);
        }
        Ok((length, kind))
    }
}
