//! Bytes written readably: `|` stands for NUL.

/// The example of the SCGI text of 2008, section 5.
pub const EXAMPLE: &str = "70:CONTENT_LENGTH|27|SCGI|1|REQUEST_METHOD|POST|REQUEST_URI|/deepthought|,What is the answer to life?";

pub fn bytes(text: &str) -> Vec<u8> {
    text.replace('|', "\0").into_bytes()
}
