//! Whole outputs of scripts, with an edition and a method to read them under.
use super::damage::damage;
use super::LETTERS;
use crate::answers::{DRAFT_1996, RFC_3875};
use crate::case::Case;
use crate::random::Random;
use crate::refusal::*;

const TYPES: &[&str] = &["Content-Type: text/plain", "content-type:\tx", "CONTENT-TYPE: a; b=c "];
const LOCAL: &[&str] = &["/", "/x", "//host/x", "/a%20b?c=%2F", "/a//b/", "/...", "/a?b?c"];
const BAD_LOCAL: &[&str] = &["/..", "/a/./b", "/%2F", "/a%", "/a b", "/a#b", "/%00", "/\u{e9}", "/a?\"", "/%7f"];
const OTHER: &[&str] = &["http://q/x", "a:b", "A+-.9:#", "mailto:z", "h:/..", "x:%"];
const BAD_OTHER: &[&str] = &["http:", ":x", "1a:b", "a_b:c", "nocolon", "http://q/a b", "h:\u{e9}", "-a:b", "a\tb:c", "?"];
const STATUS: &[&str] = &["200", "200 OK", "404 Not Found", "599", "200  x", "201", "301", "302 Found", "303", "307 x", "308", "300"];
const BAD_STATUS: &[&str] = &["", "20", "2000", "200OK", "199", "600", "000", "999", "2x0", "200\tOK", "OK", " ", "+20", "099 x"];
const OTHERS: &[&str] = &["X_Y: 1", "Set-Cookie: a=b", "A:", "Content-Length: 5", "Locations: /x", "Statu: 1", "X: \u{e9}\t~"];
const BAD_LINES: &[&str] = &[
    "HTTP/1.1 200 OK",
    ": x",
    "NoColon",
    " Folded: x",
    "\tx: y",
    "X : y",
    "X: a\rb",
    "X: a\r",
    "X: \u{1}",
    "X: a\u{7f}",
    "\r",
    "X\u{e9}: y",
];

/// A head's lines for one row of the rules' table, and whether a body may follow.
fn row(random: &mut Random) -> (Vec<String>, bool) {
    let field = |name: &str, value: &str| format!("{name}: {value}");
    match random.below(10) {
        0..=1 => (vec![field("Location", random.pick(LOCAL))], false),
        2..=3 => (vec![field("location", random.pick(OTHER))], false),
        4..=5 => {
            let status = random.pick(&["301", "302 Found", "303", "307", "308 x"]);
            (vec![field("Location", random.pick(OTHER)), field("Status", status), random.pick(TYPES).into()], true)
        }
        6..=7 => (vec![random.pick(TYPES).into()], true),
        8 => (vec![random.pick(TYPES).into(), field("STATUS", random.pick(STATUS))], true),
        _ => (vec![field("LOCATION", random.pick(BAD_OTHER)), random.pick(TYPES).into()], true),
    }
}

/// Changes the lines so that they may contradict each other or break a rule.
fn spoil(random: &mut Random, lines: &mut Vec<String>) {
    let field = |name: &str, value: &str| format!("{name}: {value}");
    let line = match random.below(9) {
        0 => field("Status", random.pick(BAD_STATUS)),
        1 => field("Status", random.pick(STATUS)),
        2 => field("Location", random.pick(BAD_LOCAL)),
        3 => field("Location", random.pick(BAD_OTHER)),
        4 => field("Location", random.pick(LOCAL)),
        5 => random.pick(&["Content-Type:", "Location:", "Status:"]).to_string(),
        6 => random.pick(TYPES).to_string(),
        7 => random.pick(BAD_LINES).to_string(),
        _ => {
            lines.remove(random.below(lines.len()));
            return;
        }
    };
    if random.chance(40) && line.starts_with(['L', 'S']) {
        // in place of the field of that name, so that the line alone decides
        let name = line[..line.find(':').unwrap_or(0)].to_ascii_lowercase();
        lines.retain(|other| !other.to_ascii_lowercase().starts_with(&name));
    }
    lines.insert(random.below(lines.len() + 1), line);
}

/// Brings the lines to a limit of count or of bytes, on either side of it.
fn to_limit(random: &mut Random, lines: &mut Vec<String>) {
    match random.below(3) {
        0 => {
            let count = random.around(MAX_FIELDS);
            while lines.len() < count {
                lines.push(random.pick(OTHERS).into());
            }
        }
        1 => {
            let used: usize = lines.iter().map(|line| line.len() + 2).sum();
            let len = random.around(MAX_HEAD) - used - b"Fill:\r\n\r\n".len();
            let fill = random.text(LETTERS, len);
            lines.push(format!("Fill:{}", String::from_utf8_lossy(&fill)));
        }
        _ => {
            let len = random.around(MAX_TARGET) - 1;
            let fill = random.text(b"a/", len.min(60));
            lines.clear();
            lines.push(format!("Location: /{}{}", String::from_utf8_lossy(&fill), "b".repeat(len - fill.len())));
        }
    }
}

/// A script's whole output.
pub fn script(random: &mut Random) -> Vec<u8> {
    let (mut lines, may_have_body) = row(random);
    for _ in 0..random.pick(&[0, 0, 1, 3]) {
        lines.insert(random.below(lines.len() + 1), random.pick(OTHERS).into());
    }
    let mut limit = false;
    match random.below(20) {
        0..=6 => spoil(random, &mut lines),
        7 => {
            to_limit(random, &mut lines);
            limit = true;
        }
        _ => {}
    }
    let style = random.below(3);
    let mut bytes = Vec::new();
    for line in lines.iter().map(String::as_str).chain([""]) {
        bytes.extend_from_slice(line.as_bytes());
        let with_cr = limit || style == 0 || (style == 1 && random.chance(50));
        bytes.extend_from_slice(if with_cr { b"\r\n" } else { b"\n" });
    }
    if random.chance(if may_have_body { 70 } else { 10 }) {
        bytes.extend_from_slice(random.pick(&["42", "\n", "\r\n\r\n", "Location: /x\n\n"]).as_bytes());
    }
    match random.below(10) {
        0 => damage(random, &mut bytes),
        1 if random.chance(30) => bytes.truncate(random.below(bytes.len())),
        _ => {}
    }
    bytes
}

/// Numbers that are no edition, some of them with the low bits of one.
const NO_EDITIONS: &[u64] = &[2, 3, 255, 256, 257, 1 << 32, (1 << 32) + 1, 1 << 63, (1 << 63) + 1, u64::MAX - 1, u64::MAX];

/// The number of an edition, now and then another one.
fn edition(random: &mut Random) -> u64 {
    match random.below(50) {
        0 => random.pick(NO_EDITIONS),
        1 => random.number(),
        2..=22 => RFC_3875,
        _ => DRAFT_1996,
    }
}

/// Methods that are neither GET nor HEAD, most of them near to one.
#[rustfmt::skip]
const OTHER_METHODS: &[&[u8]] = &[
    b"", b"POST", b"PUT", b"DELETE", b"OPTIONS", b"get", b"Get", b"GEt", b"head", b"Head", b"HEAd", b"GET ", b" GET", b"HEAD ", b"\tHEAD",
    b"G", b"GE", b"HEA", b"GETS", b"HEADS", b"GETHEAD", b"HEAT", b"G\0T", b"GET\0", b"\0GET", b"HE\0D", b"HEAD\0", b"\0", b"GET, HEAD",
];

/// A method: often GET or HEAD, else one near to them, any bytes, or a long one.
pub fn method(random: &mut Random) -> Vec<u8> {
    let allowed: &[u8] = random.pick(&[b"GET", b"HEAD"]);
    let mut method = allowed.to_vec();
    match random.below(20) {
        0..=9 => {}
        10 => damage(random, &mut method),
        11 => {
            // a length with the low bits of the one it had
            let more = random.pick(&[MAX_METHOD, 256, 65_536]);
            method.resize(method.len() + more, b'T');
        }
        12 => {
            let len = random.small();
            method = random.bytes(len);
        }
        _ => method = random.pick(OTHER_METHODS).to_vec(),
    }
    method
}

/// A case of the response reader.
pub fn response_case(random: &mut Random) -> Case {
    let (edition, method) = (edition(random), method(random));
    Case::response(edition, &method, script(random))
}
