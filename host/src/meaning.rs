//! The meaning of an accepted HTTP request, as the rules define it.

#[derive(Debug, PartialEq, Eq)]
pub struct Meaning {
    pub method: Vec<u8>,
    pub target: Vec<u8>,
    pub version: Vec<u8>,
    /// None where there is no Content-Type.
    pub content_type: Option<Vec<u8>>,
    /// The passed fields: lower-case name and joined value, by first appearance.
    pub fields: Vec<(Vec<u8>, Vec<u8>)>,
    pub body: Vec<u8>,
}

const NOT_PASSED: [&[u8]; 7] =
    [b"authorization", b"proxy-authorization", b"proxy", b"connection", b"keep-alive", b"content-length", b"content-type"];

/// The meaning of the bytes of one request, which was accepted.
pub fn meaning(request: &[u8]) -> Meaning {
    let (head, body) = split(request, b"\r\n\r\n");
    let (line, mut rest) = split(head, b"\r\n");
    let mut words = line.split(|&byte| byte == b' ').map(<[u8]>::to_vec);
    let mut word = || words.next().unwrap_or_default();
    let (method, target, version) = (word(), word(), word());
    let mut meaning = Meaning { method, target, version, content_type: None, fields: Vec::new(), body: body.to_vec() };
    while !rest.is_empty() {
        let (field, later) = split(rest, b"\r\n");
        rest = later;
        let (name, value) = split(field, b":");
        meaning.take(name.to_ascii_lowercase(), trim(value));
    }
    meaning
}

impl Meaning {
    fn take(&mut self, name: Vec<u8>, value: &[u8]) {
        if name == b"content-type" {
            self.content_type = Some(value.to_vec());
        }
        if NOT_PASSED.contains(&&name[..]) {
            return;
        }
        match self.fields.iter_mut().find(|field| field.0 == name) {
            Some((_, joined)) => {
                joined.extend_from_slice(separator(&name));
                joined.extend_from_slice(value);
            }
            None => self.fields.push((name, value.to_vec())),
        }
    }
}

/// What stands between two values of a name in lower case.
pub fn separator(name: &[u8]) -> &'static [u8] {
    match name {
        b"cookie" => b"; ",
        _ => b", ",
    }
}

/// The bytes before and after the first place of a mark; nothing after where it is not there.
pub fn split<'a>(bytes: &'a [u8], mark: &[u8]) -> (&'a [u8], &'a [u8]) {
    match bytes.windows(mark.len()).position(|window| window == mark) {
        Some(at) => (&bytes[..at], &bytes[at + mark.len()..]),
        None => (bytes, b""),
    }
}

/// A value without the spaces and tabs at both ends.
pub fn trim(mut value: &[u8]) -> &[u8] {
    while let [b' ' | b'\t', rest @ ..] = value {
        value = rest;
    }
    while let [rest @ .., b' ' | b'\t'] = value {
        value = rest;
    }
    value
}
