//! The archive against the independent implementation on every short input over a few bytes that matter.
use oyinkafubo_host::answers::{DRAFT_1996, RFC_3875};
use oyinkafubo_host::case::{compare, Call, Case};
use std::collections::BTreeSet;

/// Calls `each` with every text of at most `most` of the bytes.
fn every_text(from: &[u8], most: usize, each: &mut impl FnMut(&[u8])) {
    fn longer(text: &mut Vec<u8>, from: &[u8], most: usize, each: &mut impl FnMut(&[u8])) {
        each(text);
        if text.len() < most {
            for &byte in from {
                text.push(byte);
                longer(text, from, most, each);
                text.pop();
            }
        }
    }
    longer(&mut Vec::new(), from, most, each);
}

#[test]
fn netstrings() {
    every_text(b"01:,\0x", 6, &mut |text| {
        compare(&Case::new(Call::Read, vec![text.to_vec()], 0));
        compare(&Case::new(Call::Spool, vec![text.to_vec()], 1));
    });
}

/// Texts in the place of the first value, and behind the two headers that a request must have.
#[test]
fn blocks_of_requests() {
    every_text(b"01\0AS", 5, &mut |text| {
        let first = [b"CONTENT_LENGTH\0", text, b"\0SCGI\x001\0"].concat();
        let last = [b"CONTENT_LENGTH\x000\0SCGI\x001\0", text].concat();
        for block in [first, last] {
            let mut netstring = format!("{}:", block.len()).into_bytes();
            netstring.extend_from_slice(&block);
            netstring.extend_from_slice(b",xx");
            compare(&Case::new(Call::Read, vec![netstring], 0));
            compare(&Case::new(Call::Write, vec![block, b"x".to_vec()], 60));
        }
    });
}

/// Eight digits and up to four bytes more as a body length.
#[test]
fn ten_digits() {
    every_text(b"039x", 4, &mut |text| {
        for digits in [b"00000000", b"99999999"] {
            let block = [b"CONTENT_LENGTH\0", &digits[..], text, b"\0SCGI\x001\0"].concat();
            let request = [format!("{}:", block.len()).as_bytes(), &block, b",xxx"].concat();
            compare(&Case::new(Call::Read, vec![request.clone()], 0));
            compare(&Case::new(Call::Spool, vec![request], 1));
            compare(&Case::new(Call::Write, vec![block, b"xxx".to_vec()], 60));
        }
    });
}

#[test]
fn lookup_in_blocks() {
    every_text(b"\0AB", 6, &mut |block| {
        every_text(b"\0AB", 2, &mut |name| {
            compare(&Case::new(Call::Find, vec![block.to_vec(), name.to_vec()], 0));
        });
    });
    every_text(b"\0AB", 4, &mut |facts| {
        every_text(b"\0AB", 4, &mut |site| {
            compare(&Case::new(Call::Setting, vec![facts.to_vec(), site.to_vec(), b"A".to_vec()], 0));
        });
    });
}

/// Texts as lines, as a status, and as a Location.
#[test]
fn responses() {
    let check = |bytes: Vec<u8>| drop(compare(&Case::response(RFC_3875, b"GET", bytes)));
    every_text(b"A:\r\n _", 5, &mut |text| {
        check(text.to_vec());
        check([text, b"\nContent-Type: t\n\n"].concat());
        check([b"Content-Type: t", text, b"\n\nbody"].concat());
    });
    every_text(b"0256 x", 5, &mut |text| check([b"Content-Type: t\nStatus:", text, b"\n\n"].concat()));
    every_text(b"/.a%2F:?", 5, &mut |text| check([b"Location:", text, b"\n\n"].concat()));
}

/// Texts as the method under the draft edition, and every byte in each place of GET and HEAD, in place of one of theirs and between them.
/// With a document every method is accepted, with a Location these two alone.
#[test]
fn methods_under_the_draft() {
    let mut accepted = BTreeSet::new();
    let mut check = |method: &[u8]| {
        let given = |script: &[u8]| compare(&Case::response(DRAFT_1996, method, script.to_vec())).code;
        assert_eq!(given(b"Content-Type: t\n\nbody"), 0, "{method:?}");
        match given(b"Location: /x\n\n") {
            0 => drop(accepted.insert(method.to_vec())),
            number => assert_eq!(number, 25, "{method:?}"),
        }
    };
    every_text(b"GETHAD ", 5, &mut check);
    for (method, byte) in [&b"GET"[..], b"HEAD"].into_iter().flat_map(|method| (0..=255).map(move |byte| (method, byte))) {
        for at in 0..=method.len() {
            check(&[&method[..at], &[byte], &method[at..]].concat());
            check(&[&method[..at], &[byte], method.get(at + 1..).unwrap_or_default()].concat());
        }
    }
    assert_eq!(accepted, BTreeSet::from([b"GET".to_vec(), b"HEAD".to_vec()]));
}

mod gateway {
    use super::{compare, every_text, Call, Case};
    use oyinkafubo_host::recorded;

    fn check(http: Vec<u8>) {
        let mut inputs = recorded::blocks("10.0.0.9", "/a", "pool");
        inputs.push(http);
        compare(&Case::new(Call::Gateway, inputs, 300));
    }

    #[test]
    fn targets() {
        every_text(b"/.a%2F?", 5, &mut |text| check([b"GET /a", text, b" HTTP/1.0\r\n\r\n"].concat()));
    }

    #[test]
    fn request_lines() {
        every_text(b" /G\r\n1", 5, &mut |text| {
            check([text, b" /a HTTP/1.0\r\n\r\n"].concat());
            check([b"GET /a HTTP/1.", text, b"\r\n\r\n"].concat());
            check([b"GET", text, b"HTTP/1.0\r\n\r\n"].concat());
        });
    }

    #[test]
    fn field_lines() {
        every_text(b"A:_ \t\r\n-", 5, &mut |text| check([b"GET /a HTTP/1.0\r\n", text, b"\r\nA: x\r\n\r\n"].concat()));
    }

    /// Two lines of a name around a Cookie: every byte in every place of that name, and texts of a few bytes as its end.
    #[test]
    fn names_like_cookie() {
        let check_name = |name: &[u8]| check([b"GET /a HTTP/1.0\r\n", name, b": x\r\nCookie: y\r\n", name, b": z\r\n\r\n"].concat());
        for at in 0..b"Cookie".len() {
            for byte in 0..=255 {
                let mut name = *b"Cookie";
                name[at] = byte;
                check_name(&name);
            }
        }
        every_text(b"iIeE2-", 4, &mut |text| check_name(&[b"Cook", text].concat()));
    }

    #[test]
    fn content_lengths() {
        every_text(b"01, x", 5, &mut |text| check([b"GET /a HTTP/1.0\r\nContent-Length:", text, b"\r\n\r\nxx"].concat()));
        every_text(b"039 x", 4, &mut |text| {
            check([b"GET /a HTTP/1.0\r\nContent-Length: 00000000", text, b"\r\n\r\nxxx"].concat());
            check([b"GET /a HTTP/1.0\r\nContent-Length: 99999999", text, b"\r\n\r\nxxx"].concat());
        });
    }

    /// Compares requests under a mount of this value that wins, and under one that does not: without a body, with five bytes of it, and
    /// with lengths that are stated at the largest limit.
    fn check_value(value: &[u8]) {
        let wins = [b"/a\0", value, b"\0/b\0pool\0"].concat();
        let loses = [b"/b\0", value, b"\0/a\0pool\0"].concat();
        for mounts in [wins, loses] {
            for (stated, body) in [("0", ""), ("5", "hello"), ("1048575", ""), ("1048576", "")] {
                let mut inputs = recorded::blocks("10.0.0.9", "/a", "pool");
                inputs[2] = mounts.clone();
                inputs.push(format!("POST /a HTTP/1.0\r\nContent-Length: {stated}\r\n\r\n{body}").into_bytes());
                compare(&Case::new(Call::Gateway, inputs, 300));
            }
        }
    }

    /// Every value of a mount over a few bytes, and limits of few digits, of up to twelve, and near to the largest one.
    #[test]
    fn mount_values() {
        every_text(b"p;059x", 5, &mut check_value);
        let starts: [&[u8]; 5] = [b"p;104857", b"p;00010485", b"p;00000000", b"p;10000000", b"p;99999999"];
        for start in starts {
            every_text(b"05679; x", 4, &mut |text| check_value(&[start, text].concat()));
        }
    }

    /// Every port and every text of a mount, over a few bytes.
    #[test]
    fn lent_blocks() {
        let http = b"GET /a HTTP/1.0\r\n\r\n";
        every_text(b"0156/", 5, &mut |text| {
            let mut inputs = recorded::blocks("10.0.0.9", "/a", "pool");
            inputs[1] = [b"SERVER_NAME\0q\0SERVER_SOFTWARE\0g\0SERVER_PORT\0", text, b"\0"].concat();
            inputs.push(http.to_vec());
            compare(&Case::new(Call::Gateway, inputs, 300));
        });
        every_text(b"/a\0.", 6, &mut |text| {
            let mut inputs = recorded::blocks("10.0.0.9", "/a", "pool");
            inputs[2] = text.to_vec();
            inputs.push(http.to_vec());
            compare(&Case::new(Call::Gateway, inputs, 300));
        });
    }
}
