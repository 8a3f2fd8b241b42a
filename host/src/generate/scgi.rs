//! SCGI requests, blocks and spools.
use super::damage::damage;
use super::{block, digits, pair, room, Pair, LETTERS};
use crate::case::{Call, Case};
use crate::random::Random;
use crate::refusal::*;

const NAMES: &[&str] =
    &["REQUEST_METHOD", "REQUEST_URI", "CONTENT_TYPE", "HTTP_HOST", "SCGi", "SCGI1", "CONTENT_LENGTHS", "content_length", "X", "XY"];

/// The headers of a request with a body of this length.
fn headers(random: &mut Random, body_len: usize) -> Vec<Pair> {
    let mut pairs = vec![pair("CONTENT_LENGTH", digits::few(random, body_len).as_bytes())];
    for _ in 0..random.small() {
        let header = any_header(random);
        if !pairs.iter().any(|other| other.0 == header.0) && header.0 != b"SCGI" {
            pairs.push(header);
        }
    }
    let at = random.between(1, pairs.len());
    pairs.insert(at, pair("SCGI", b"1"));
    pairs
}

fn any_header(random: &mut Random) -> Pair {
    let name = if random.chance(60) {
        random.pick(NAMES).as_bytes().to_vec()
    } else {
        let len = 1 + random.small();
        (0..len).map(|_| 1 + random.below(255) as u8).collect()
    };
    let len = random.small();
    let value = if random.chance(50) { random.text(b"0123456789/ab", len) } else { random.text(b"\x01\x7f\x80\xff:, ", len) };
    (name, value)
}

/// `count` headers that make a request, with names of near lengths.
fn many_headers(random: &mut Random, count: usize) -> Vec<Pair> {
    let mut pairs = headers(random, 0);
    pairs.truncate(1);
    pairs.push(pair("SCGI", b"1"));
    while pairs.len() < count {
        let value = pairs.len().to_string();
        pairs.push(pair(&format!("H{}", pairs.len()), value.as_bytes()));
    }
    pairs
}

/// A request's block of exactly this many bytes.
fn block_of(random: &mut Random, len: usize) -> Vec<u8> {
    let mut pairs = vec![pair("CONTENT_LENGTH", b"0"), pair("SCGI", b"1")];
    let used = block(&pairs).len() + 3;
    pairs.push(pair("F", &random.text(LETTERS, len - used)));
    block(&pairs)
}

fn netstring(block: &[u8]) -> Vec<u8> {
    let mut bytes = format!("{}:", block.len()).into_bytes();
    bytes.extend_from_slice(block);
    bytes.push(b',');
    bytes
}

/// A length for a body: mostly short, now and then long, rarely of the largest lengths.
fn body_len(random: &mut Random) -> usize {
    match random.below(1000) {
        0..=1 => random.around(MAX_BODY).min(MAX_BODY),
        2..=20 => random.below(3000),
        _ => random.small(),
    }
}

/// A good request.
pub fn request(random: &mut Random) -> Vec<u8> {
    let len = body_len(random);
    let mut bytes = netstring(&block(&headers(random, len)));
    let fill = random.number() as u8;
    bytes.resize(bytes.len() + len, fill);
    bytes
}

/// Headers with the fault that a number stands for; good ones for any other number.
fn faulty_headers(random: &mut Random, number: Refusal) -> Vec<Pair> {
    let mut pairs = headers(random, 0);
    match number {
        HEADERS => return extra_headers(random),
        TWICE => {
            let again = pairs[random.below(pairs.len())].clone();
            let at = random.between(1, pairs.len());
            pairs.insert(at, (again.0, random.text(b"01", 1)));
        }
        FIRST => match random.below(6) {
            0 => pairs.swap(0, 1),
            1 => pairs[0].1.clear(),
            2 => pairs[0].1.push(random.pick(b"x +-/:")),
            3 => drop(pairs.remove(0)),
            4 => pairs[0].1 = digits::many(random).into_bytes(),
            _ => pairs[0].0.push(b'S'),
        },
        BODY_LONG => pairs[0].1 = digits::large(random).into_bytes(),
        SCGI => {
            let at = pairs.iter().position(|header| header.0 == b"SCGI").unwrap_or(0);
            match random.below(4) {
                0 => drop(pairs.remove(at)),
                1 => pairs[at].0 = b"scgi".to_vec(),
                _ => pairs[at].1 = random.pick(&["", "2", "11", "01", "1 "]).as_bytes().to_vec(),
            }
        }
        _ => {}
    }
    pairs
}

fn extra_headers(random: &mut Random) -> Vec<Pair> {
    let count = MAX_HEADERS + 1 + random.pick(&[0, 0, 1, 40]);
    many_headers(random, count)
}

/// A block that is malformed.
pub fn malformed_block(random: &mut Random) -> Vec<u8> {
    let mut bytes = block(&headers(random, 0));
    match random.below(4) {
        0 => drop(bytes.pop()),
        1 => bytes.push(0),
        2 => bytes.insert(0, 0),
        _ => bytes.extend_from_slice(b"NAME"),
    }
    bytes
}

/// A block with the fault that a number stands for, for the numbers 3 and 5 to 10.
fn faulty_block(random: &mut Random, number: Refusal) -> Vec<u8> {
    match number {
        BLOCK_LONG => {
            let len = MAX_BLOCK + 1 + random.small();
            block_of(random, len)
        }
        BLOCK => malformed_block(random),
        _ => block(&faulty_headers(random, number)),
    }
}

/// A request with the fault that a number from 1 to 10 stands for.
fn faulty_request(random: &mut Random, number: Refusal) -> Vec<u8> {
    match number {
        CUT => {
            let mut bytes = request(random);
            bytes.truncate(random.below(bytes.len()));
            bytes
        }
        LENGTH => random.pick(&["05", ":", "00:,", "12,", "1x", "16384x", "016385", "-1:", "+1:a,", " 1:a,", "1 :"]).as_bytes().to_vec(),
        BLOCK_LONG if random.chance(70) => random.pick(&["16385", "16386:", "163840", "99999", "20000:x", "184467440737095516160:"]).into(),
        COMMA => {
            let len = random.small();
            let mut bytes = netstring(&block(&headers(random, len)));
            bytes.pop();
            bytes.push(random.pick(b"x;\0:0"));
            bytes
        }
        _ => netstring(&faulty_block(random, number)),
    }
}

/// A request at one of the limits, on either side of it.
fn request_at_limit(random: &mut Random) -> Vec<u8> {
    match random.below(3) {
        0 => {
            let count = random.around(MAX_HEADERS);
            netstring(&block(&many_headers(random, count)))
        }
        1 => {
            let len = random.around(MAX_BLOCK);
            netstring(&block_of(random, len))
        }
        _ => {
            let stated = random.around(MAX_BODY);
            netstring(&block(&headers(random, stated)))
        }
    }
}

/// Bytes for the reader.
pub fn read_input(random: &mut Random) -> Vec<u8> {
    let mut bytes = match random.below(20) {
        0..=9 => request(random),
        10..=16 => {
            let number = 1 + random.below(10) as Refusal;
            faulty_request(random, number)
        }
        17 => request_at_limit(random),
        18 => {
            let len = random.small();
            random.bytes(len)
        }
        _ => random.text(b"0123456789:,", 6),
    };
    if random.chance(25) {
        let after = random.pick(&["x", "0", "28:CONTENT", "\0"]);
        bytes.extend_from_slice(after.as_bytes());
    }
    if random.chance(30) && bytes.len() < 10_000 {
        damage(random, &mut bytes);
    }
    bytes
}

/// A block and a body for the writer.
pub fn write_case(random: &mut Random) -> Case {
    let mut body_len = body_len(random);
    let mut bytes = match random.below(10) {
        0..=5 => block(&headers(random, body_len)),
        6..=8 => {
            body_len = 0;
            let number = random.pick(&[BLOCK_LONG, BLOCK, HEADERS, TWICE, FIRST, BODY_LONG, SCGI]);
            faulty_block(random, number)
        }
        _ => {
            body_len = 0;
            block_at_limit(random)
        }
    };
    if random.chance(15) && bytes.len() < 2000 {
        damage(random, &mut bytes);
    }
    if random.chance(8) {
        body_len = random.around(body_len);
    }
    let body = vec![random.number() as u8; body_len];
    let exact = netstring(&bytes).len() + body_len;
    let room = room(random, exact);
    Case::new(Call::Write, vec![bytes, body], room)
}

/// A block at the limit of bytes, or of headers, on either side of it.
fn block_at_limit(random: &mut Random) -> Vec<u8> {
    let len = random.pick(&[9, 99, 999, 9_999, MAX_BLOCK]);
    let around = random.around(len).max(30);
    let count = random.around(MAX_HEADERS);
    if random.chance(60) {
        block_of(random, around)
    } else {
        block(&many_headers(random, count))
    }
}

/// Any block, mostly well formed, with names that are near each other.
fn any_block(random: &mut Random) -> Vec<u8> {
    let mut pairs: Vec<Pair> = (0..random.small()).map(|_| any_header(random)).collect();
    if random.chance(3) {
        let count = random.around(200);
        pairs = many_headers(random, count);
    }
    let mut bytes = block(&pairs);
    if random.chance(20) {
        damage(random, &mut bytes);
    }
    bytes
}

/// A name: mostly one that the block may have.
fn any_name(random: &mut Random, block: &[u8]) -> Vec<u8> {
    let names: Vec<&[u8]> = block.split(|&byte| byte == 0).collect();
    match random.below(10) {
        0..=5 => random.pick(&names).to_vec(),
        6 => Vec::new(),
        7 => block[..random.below(block.len())].to_vec(),
        _ => any_header(random).0,
    }
}

pub fn find_case(random: &mut Random) -> Case {
    let block = any_block(random);
    let name = any_name(random, &block);
    Case::new(Call::Find, vec![block, name], 0)
}

pub fn setting_case(random: &mut Random) -> Case {
    let facts = any_block(random);
    let site = any_block(random);
    let from_facts = random.chance(50);
    let name = any_name(random, if from_facts { &facts } else { &site });
    Case::new(Call::Setting, vec![facts, site, name], 0)
}

/// Requests end to end, the last one often cut or faulty, and a list with room for about as many.
pub fn spool_case(random: &mut Random) -> Case {
    let count = random.small();
    let mut bytes: Vec<u8> = (0..count).flat_map(|_| request(random)).collect();
    match random.below(10) {
        0..=2 => bytes.truncate(random.below(bytes.len() + 1)),
        3..=5 => {
            let number = 1 + random.below(10) as Refusal;
            bytes.extend(faulty_request(random, number));
        }
        6 if bytes.len() < 10_000 => damage(random, &mut bytes),
        _ => {}
    }
    let room = if random.chance(50) { random.around(count) } else { count + random.below(10) };
    Case::new(Call::Spool, vec![bytes], room)
}
