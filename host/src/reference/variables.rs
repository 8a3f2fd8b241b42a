//! The variables of a gateway request as a block.
use super::bytes::Digits;
use super::fields::Fields;
use super::head::RequestLine;
use super::lent::Lent;
use super::target::Target;

/// What the variables are made of.
pub struct Variables<'a, 'p> {
    pub lent: &'a Lent<'a>,
    pub line: &'a RequestLine<'a>,
    pub target: &'a Target<'a, 'p>,
    pub mount: &'a [u8],
    pub content_type: Option<&'a [u8]>,
    pub body_len: usize,
    pub fields: &'a Fields<'a>,
}

/// Takes the block's bytes in order: to count them, or to write them.
pub trait Sink {
    fn put(&mut self, bytes: &[u8]);
}

/// Counts the bytes.
pub struct Count(pub usize);

impl Sink for Count {
    fn put(&mut self, bytes: &[u8]) {
        self.0 += bytes.len();
    }
}

/// Writes the bytes from `at` on.
pub struct Cursor<'o> {
    pub out: &'o mut [u8],
    pub at: usize,
}

impl Sink for Cursor<'_> {
    fn put(&mut self, bytes: &[u8]) {
        self.out[self.at..self.at + bytes.len()].copy_from_slice(bytes);
        self.at += bytes.len();
    }
}

/// Names of fields that are not passed.
const NOT_PASSED: [&str; 7] =
    ["Authorization", "Proxy-Authorization", "Proxy", "Connection", "Keep-Alive", "Content-Length", "Content-Type"];

impl Variables<'_, '_> {
    /// Gives the whole block to the sink.
    pub fn put(&self, sink: &mut impl Sink) {
        self.put_request(sink);
        self.put_server(sink);
        self.put_fields(sink);
    }

    fn put_request(&self, sink: &mut impl Sink) {
        put_variable(sink, b"CONTENT_LENGTH", Digits::of(self.body_len).text());
        put_variable(sink, b"SCGI", b"1");
        if let Some((auth_type, _)) = self.lent.user {
            put_variable(sink, b"AUTH_TYPE", auth_type);
        }
        if let Some(kind) = self.content_type {
            put_variable(sink, b"CONTENT_TYPE", kind);
        }
        put_variable(sink, b"GATEWAY_INTERFACE", b"CGI/1.1");
        put_variable(sink, b"PATH_INFO", &self.target.path[self.mount.len()..]);
        put_variable(sink, b"QUERY_STRING", self.target.query);
    }

    fn put_server(&self, sink: &mut impl Sink) {
        put_variable(sink, b"REMOTE_ADDR", self.lent.remote_addr);
        if let Some((_, user)) = self.lent.user {
            put_variable(sink, b"REMOTE_USER", user);
        }
        put_variable(sink, b"REQUEST_METHOD", self.line.method);
        put_variable(sink, b"REQUEST_URI", self.line.target);
        put_variable(sink, b"SCRIPT_NAME", self.mount);
        put_variable(sink, b"SERVER_NAME", self.lent.server_name);
        put_variable(sink, b"SERVER_PORT", self.lent.server_port);
        put_variable(sink, b"SERVER_PROTOCOL", self.line.version);
        put_variable(sink, b"SERVER_SOFTWARE", self.lent.server_software);
    }

    /// One variable for each passed field name, ordered by first appearance: the values of all fields with that name, joined
    /// with a semicolon and a space for Cookie, and with a comma and a space for any other name.
    fn put_fields(&self, sink: &mut impl Sink) {
        let Fields { list, first } = self.fields;
        for (at, field) in list.iter().enumerate() {
            if first[at] != at || NOT_PASSED.iter().any(|name| field.is(name)) {
                continue;
            }
            put_field_name(sink, field.name);
            sink.put(field.value);
            let separator = if field.is("Cookie") { b"; " } else { b", " };
            for (later, _) in list.iter().zip(first).skip(at + 1).filter(|(_, first)| **first == at) {
                sink.put(separator);
                sink.put(later.value);
            }
            sink.put(b"\0");
        }
    }
}

fn put_variable(sink: &mut impl Sink, name: &[u8], value: &[u8]) {
    sink.put(name);
    sink.put(b"\0");
    sink.put(value);
    sink.put(b"\0");
}

fn put_field_name(sink: &mut impl Sink, name: &[u8]) {
    sink.put(b"HTTP_");
    for &byte in name {
        sink.put(&[if byte == b'-' { b'_' } else { byte.to_ascii_uppercase() }]);
    }
    sink.put(b"\0");
}
