//! HTTP requests with a wanted fault, and at a limit.
use super::draft::{field, Draft};
use super::{digits, LETTERS};
use crate::random::Random;
use crate::refusal::*;

#[rustfmt::skip]
const BAD_TARGETS: &[&str] = &[
    "", "*", "a/b", "http://q/x", "/a%2Fb", "/a%2fb", "/%", "/%4", "/%4g", "/%g4", "/a#b", "/a\"b", "/a\tb", "/a\\b", "/\u{e9}", "/.", "/..",
    "/a/./b", "/a/../b", "/%2e", "/a/%2E.", "/a/.%2e/b", "/%00", "/%1F", "/%7f", "/a?%", "/a?%zz", "/a?\u{e9}", "/a?b#c", "/a\rb", "/a?b\nc",
];
#[rustfmt::skip]
const BAD_FIELDS: &[&[u8]] = &[
    b"A_B: x", b": x", b"NoColon", b" Folded: x", b"\tFolded: x", b"Sp ace: x", b"X : y", b"X: a\x00b", b"X: a\x7f", b"X: a\rb", b"X: a\nb",
    b"X: a\r", b"X: \x01", b"(x): y", b"X\x80: y", b"_: y",
];

/// Makes a good request wrong in the way that a number from 9 to 19 stands for.
pub fn spoil(random: &mut Random, draft: &mut Draft, number: Refusal) {
    match number {
        BODY_LONG => spoil_body(random, draft),
        HEAD_LONG => {
            let len = MAX_HEAD + random.small();
            fill_head(random, draft, len);
        }
        REQUEST_LINE => spoil_line(random, draft),
        VERSION => draft.version = random.pick(&["HTTP/1.2", "HTTP/2.0", "HTTP/0.9", "HTTP/3.1", "HTTP/9.9"]).into(),
        TARGET => spoil_target(random, draft),
        FIELD => spoil_field(random, draft),
        HOST => spoil_host(random, draft),
        CONTENT => spoil_content(random, draft),
        TRANSFER_ENCODING => {
            let field = random.pick(&["Transfer-Encoding: chunked", "transfer-encoding:", "TRANSFER-ENCODING: x"]);
            draft.insert(random, field.as_bytes());
        }
        _ => draft.target = random.pick(&["/", "/nothing", "/Jobs", "/jobs%78", "/ajobs", "/%6Aob", "/a%2e", "//jobs"]).into(),
    }
}

/// More bytes than any mount allows, or a few more than the draft's, which are there or not.
fn spoil_body(random: &mut Random, draft: &mut Draft) {
    let len = draft.limit + random.pick(&[1, 1, 2, 10]);
    let stated = if random.chance(30) { digits::large(random) } else { digits::few(random, len) };
    draft.state(random, &stated);
    if len < 3000 && random.chance(50) {
        draft.body.resize(len, b'b');
    }
}

fn spoil_line(random: &mut Random, draft: &mut Draft) {
    match random.below(6) {
        0 => draft.method.clear(),
        1 => draft.method.resize(MAX_METHOD + 1 + random.below(2), b'G'),
        2 => draft.method.push(random.pick(b" (\t\"\r\n\x80/")),
        3 => draft.version = random.pick(&["HTTP/1.10", "HTTP/1", "http/1.1", "HTTP/1.1 ", "", "HTTP/1,1", "HTTP/a.1", "XHTTP/1.1"]).into(),
        4 => draft.version.push(random.pick(b"\r\n \t")),
        _ => draft.target.insert(0, b' '),
    }
}

fn spoil_target(random: &mut Random, draft: &mut Draft) {
    match random.below(4) {
        0 => draft.target = "/".repeat(MAX_SLASHES + 1 + random.below(2)).into_bytes(),
        1 => {
            let len = MAX_TARGET + 1 + random.below(2);
            draft.target = long_target(random, len);
        }
        _ => draft.target = random.pick(BAD_TARGETS).into(),
    }
}

/// A target of this many bytes.
fn long_target(random: &mut Random, len: usize) -> Vec<u8> {
    let mut target = b"/a".to_vec();
    let mark = random.pick(b"x/?");
    target.push(mark);
    let fill = random.text(LETTERS, len - target.len());
    target.extend(fill);
    target
}

/// Adds field lines until there are this many.
fn add_fields(random: &mut Random, draft: &mut Draft, count: usize) {
    while draft.fields.len() < count {
        let line = field(random);
        draft.insert(random, &line);
    }
}

fn spoil_field(random: &mut Random, draft: &mut Draft) {
    if random.chance(20) {
        let count = MAX_FIELDS + 1 + random.below(2);
        add_fields(random, draft, count);
    } else {
        let line = random.pick(BAD_FIELDS);
        draft.insert(random, line);
    }
}

fn spoil_host(random: &mut Random, draft: &mut Draft) {
    if draft.version == b"HTTP/1.1" && random.chance(50) {
        draft.remove("Host");
    } else {
        draft.remove("Host");
        draft.insert(random, b"Host: a");
        draft.insert(random, b"hosT: a");
    }
}

fn spoil_content(random: &mut Random, draft: &mut Draft) {
    match random.below(3) {
        0 => {
            let bad = random.pick(&["5, 5", "", "x", "+5", "-1", "0x5", "5 5", "5."]);
            let stated = if random.chance(50) { digits::many(random) } else { bad.into() };
            draft.state(random, &stated);
        }
        1 => {
            draft.insert(random, b"Content-Length: 0");
            draft.insert(random, b"content-length: 0");
        }
        _ => {
            draft.insert(random, b"Content-Type: a");
            draft.insert(random, b"CONTENT-TYPE: a");
        }
    }
}

/// Adds a field so that the head has exactly this many bytes.
fn fill_head(random: &mut Random, draft: &mut Draft, len: usize) {
    let used = draft.bytes().len() - draft.body.len() + b"Fill:\r\n".len();
    if used <= len {
        let value = random.text(LETTERS, len - used);
        draft.insert(random, &[b"Fill:", &value[..]].concat());
    }
}

/// A request at one of the limits, on either side of it.
pub fn at_limit(random: &mut Random, draft: &mut Draft) {
    match random.below(7) {
        0 => draft.method = vec![b'M'; random.around(MAX_METHOD)],
        1 => {
            let len = random.around(MAX_TARGET);
            draft.target = long_target(random, len);
        }
        2 => {
            let slashes = random.around(MAX_SLASHES);
            draft.target = format!("/a{}?{}", "/".repeat(slashes - 1), "/".repeat(random.below(9))).into();
        }
        3 => {
            let count = random.around(MAX_FIELDS);
            add_fields(random, draft, count);
        }
        4 => {
            let len = random.around(MAX_HEAD);
            fill_head(random, draft, len);
        }
        5 => {
            // about the most variables that there can be
            draft.target = long_target(random, MAX_TARGET);
            add_fields(random, draft, MAX_FIELDS - 1);
            fill_head(random, draft, MAX_HEAD);
        }
        _ => {
            let limit = random.pick(&[MAX_BODY, draft.limit]);
            let len = random.around(limit);
            draft.state(random, &len.to_string());
            if len < 3000 {
                draft.body.resize(len, b'b');
            }
        }
    }
}
