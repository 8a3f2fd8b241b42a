//! The recorded bytes of data/ and what its index says of them.
use crate::answers::RFC_3875;
use crate::case::{Call, Case};
use crate::generate::{block, pair};
use std::fs;
use std::path::PathBuf;

pub struct Recorded {
    pub file: String,
    pub case: Case,
    /// The numbers of the answer, or the refusal.
    pub expected: Result<Vec<u64>, u64>,
}

/// Every recorded file, in the order of the index.
pub fn all() -> Vec<Recorded> {
    let folder = PathBuf::from(concat!(env!("CARGO_MANIFEST_DIR"), "/data"));
    let index = fs::read_to_string(folder.join("index.txt")).expect("data/index.txt can be read");
    let lines = index.lines().filter(|line| !line.starts_with('#'));
    lines.map(|line| of_line(&folder, line)).collect()
}

fn of_line(folder: &std::path::Path, line: &str) -> Recorded {
    let mut words = line.split_whitespace();
    let file = words.next().expect("a line begins with a file").to_string();
    let bytes = fs::read(folder.join(&file)).unwrap_or_else(|error| panic!("{file}: {error}"));
    let words: Vec<&str> = words.collect();
    let number = |word: &&str| word.parse().unwrap_or_else(|_| panic!("index.txt: {line}"));
    let expected = match words[..] {
        ["refused", refusal] => Err(number(&refusal)),
        _ => Ok(words.iter().map(number).collect()),
    };
    let case = case_of(&file, bytes);
    Recorded { file, case, expected }
}

/// The call that a file's folder is for, with room enough for what it writes.
fn case_of(file: &str, bytes: Vec<u8>) -> Case {
    if file.starts_with("scgi-nginx/") {
        return Case::new(Call::Read, vec![bytes], 0);
    }
    if file.starts_with("cgi-wsgiref/") {
        return Case::response(RFC_3875, b"GET", bytes);
    }
    let room = bytes.len() + 20_000;
    let mut inputs = blocks("127.0.0.1", "/app", "a");
    inputs.push(bytes);
    Case::new(Call::Gateway, inputs, room)
}

/// Connection facts, site settings and one mount, with its value: a pool, or a pool, `;` and a limit.
pub fn blocks(address: &str, mount: &str, value: &str) -> Vec<Vec<u8>> {
    let site = [pair("SERVER_NAME", b"q.example"), pair("SERVER_PORT", b"80"), pair("SERVER_SOFTWARE", b"gate/1")];
    vec![block(&[pair("REMOTE_ADDR", address.as_bytes())]), block(&site), block(&[pair(mount, value.as_bytes())])]
}
