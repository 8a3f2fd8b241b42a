//! The three blocks that the gateway is lent.
use super::damage::damage;
use super::{block, digits, pair, Pair, LETTERS};
use crate::meaning::split;
use crate::random::Random;
use crate::refusal::*;

/// The headers of the three blocks.
#[derive(Clone)]
pub struct Lent {
    pub facts: Vec<Pair>,
    pub site: Vec<Pair>,
    pub mounts: Vec<Mount>,
}

impl Lent {
    /// The three blocks in the order of the call's parameters.
    pub fn blocks(&self) -> Vec<Vec<u8>> {
        vec![block(&self.facts), block(&self.site), self.mounts_block()]
    }

    fn mounts_block(&self) -> Vec<u8> {
        block(&self.mounts.iter().map(Mount::pair).collect::<Vec<_>>())
    }
}

/// A block of mounts without what stands behind the pools.
pub fn without_limits(mounts: &[u8]) -> Vec<u8> {
    let texts = mounts.split(|&byte| byte == 0).enumerate();
    let kept: Vec<_> = texts.map(|(at, text)| if at % 2 == 1 { split(text, b";").0 } else { text }).collect();
    kept.join(&0)
}

/// A mount in parts, so that one part can be made wrong.
#[derive(Clone)]
pub struct Mount {
    pub name: Vec<u8>,
    pub pool: Vec<u8>,
    /// What stands behind the pool: nothing, or `;` and the limit.
    pub rest: Vec<u8>,
    /// The most bytes that a body may have.
    pub limit: usize,
}

impl Mount {
    /// A mount without a limit of its own.
    fn new(name: &[u8], pool: &[u8]) -> Self {
        Mount { name: name.to_vec(), pool: pool.to_vec(), rest: Vec::new(), limit: MAX_BODY }
    }

    fn pair(&self) -> Pair {
        (self.name.clone(), [&self.pool[..], &self.rest].concat())
    }

    /// Gives a limit to every other one, mostly one that small bodies reach.
    fn add_limit(&mut self, random: &mut Random) {
        if random.chance(50) {
            self.limit = random.pick(&[0, 1, 2, 5, 8, 20, 300, MAX_BODY - 1, MAX_BODY]);
            self.rest = format!(";{}", digits::few(random, self.limit)).into_bytes();
        }
    }
}

const SERVER: [&str; 3] = ["SERVER_NAME", "SERVER_PORT", "SERVER_SOFTWARE"];
const MOUNTS: &[&str] = &["/jobs", "/jobs/old", "/jobsx", "/a", "/a/b", "/a/b/c", "/A", "/a//b", "/ a", "/\u{e9}", "/a%2Fb", "/x.y", "//a"];

/// Good blocks.
pub fn good(random: &mut Random) -> Lent {
    let mut lent = Lent { facts: vec![pair("REMOTE_ADDR", b"10.0.0.9")], site: Vec::new(), mounts: mounts(random) };
    for name in SERVER {
        let value = server_value(random, name);
        let place = random.below(10);
        if place < 3 {
            lent.facts.push(pair(name, &value));
        }
        if place >= 2 {
            lent.site.push(pair(name, if place == 2 { b"" } else { &value }));
        }
    }
    if random.chance(20) {
        lent.facts.insert(0, pair("AUTH_TYPE", b"Basic"));
        lent.facts.push(pair("REMOTE_USER", b"zo\xeb"));
    }
    if random.chance(20) {
        let name = random.pick(&["AUTH_TYPE", "REMOTE_USER", "REMOTE_ADDR", "OTHER", "server_port"]);
        lent.site.push(pair(name, random.pick(&["", "x"]).as_bytes()));
    }
    lent
}

fn server_value(random: &mut Random, name: &str) -> Vec<u8> {
    let from: &[&str] = match name {
        "SERVER_PORT" => &["80", "1", "9", "443", "65535", "65534", "10000"],
        _ => &["q.example", "g", "gate/1", "\u{e9} \r\n"],
    };
    random.pick(from).as_bytes().to_vec()
}

fn mounts(random: &mut Random) -> Vec<Mount> {
    let mut mounts: Vec<Mount> = Vec::new();
    if random.chance(5) {
        // no path has such a segment, so this one never fits
        mounts.push(Mount::new(b"/./z", b"p"));
    }
    let most = mounts.len() + random.pick(&[1, 2, 4, 11]);
    while mounts.len() < most {
        let name = random.pick(MOUNTS).as_bytes();
        if !mounts.iter().any(|mount| mount.name == name) {
            mounts.push(Mount::new(name, random.pick(&["p", "pool-7", "a b", "5"]).as_bytes()));
        }
    }
    for mount in &mut mounts {
        mount.add_limit(random);
    }
    mounts
}

/// Blocks at a limit of bytes or of entries, on either side of it, made from good ones.
pub fn at_limit(random: &mut Random, mut lent: Lent) -> Lent {
    let to_facts = random.around(MAX_FACTS);
    let to_mounts = random.around(MAX_MOUNTS);
    match random.below(5) {
        0 => lent.facts.push(filler(random, &block(&lent.facts), to_facts)),
        1 => lent.site.push(filler(random, &block(&lent.site), to_facts)),
        2 => {
            let (name, pool) = filler(random, &lent.mounts_block(), to_mounts);
            lent.mounts.push(Mount::new(&name, &pool));
        }
        3 => {
            lengthen(&mut lent.facts, to_facts);
            lengthen(&mut lent.site, MAX_FACTS);
        }
        _ => {
            let count = random.around(MAX_MOUNT_COUNT);
            while lent.mounts.len() < count {
                let name = format!("/m{}", lent.mounts.len());
                lent.mounts.push(Mount::new(name.as_bytes(), b"p"));
            }
        }
    }
    lent
}

/// Lengthens the first value so that the block has exactly this many bytes.
fn lengthen(pairs: &mut [Pair], len: usize) {
    let used = block(pairs).len();
    if let Some((_, value)) = pairs.first_mut() {
        value.resize(value.len() + len - used, b'7');
    }
}

/// A header with which the block has exactly this many bytes.
fn filler(random: &mut Random, block: &[u8], len: usize) -> Pair {
    let name = "/fill";
    let used = block.len() + name.len() + 2;
    pair(name, &random.text(LETTERS, len - used))
}

/// Blocks with one breach of their rules, made from good ones.
pub fn breach(random: &mut Random, mut lent: Lent) -> Vec<Vec<u8>> {
    match random.below(6) {
        0 => breach_of_server(random, &mut lent),
        1 => breach_of_connection(random, &mut lent),
        2 => breach_of_mounts(random, &mut lent),
        3 => breach_of_limits(random, &mut lent),
        4 => repeat_a_name(random, &mut lent),
        _ => {
            let mut blocks = lent.blocks();
            let which = random.below(3);
            damage(random, &mut blocks[which]);
            return blocks;
        }
    }
    lent.blocks()
}

/// Ports that are no 1 to 65535 in digits without a leading zero, two of them in eleven digits, one that is 80 where it wraps.
const BAD_PORTS: &[&str] =
    &["0", "080", "65536", "70000", "9999999999", "10000000080", "00000000080", "18446744073709551696", "8a", " 80", "-1", ""];

fn breach_of_server(random: &mut Random, lent: &mut Lent) {
    let name = random.pick(&SERVER);
    let bad_port = random.pick(BAD_PORTS);
    lent.site.retain(|header| header.0 != name.as_bytes());
    lent.facts.retain(|header| header.0 != name.as_bytes());
    let to_facts = random.chance(50);
    let block = if to_facts { &mut lent.facts } else { &mut lent.site };
    match random.below(3) {
        0 => {}
        1 => block.push(pair(name, b"")),
        _ => {
            block.retain(|header| header.0 != b"SERVER_PORT");
            block.push(pair("SERVER_PORT", bad_port.as_bytes()));
        }
    }
    if to_facts && random.chance(50) {
        // a good value in the site settings does not help
        lent.site.push(pair(name, b"81"));
    }
}

fn breach_of_connection(random: &mut Random, lent: &mut Lent) {
    let both = ["AUTH_TYPE", "REMOTE_USER"];
    lent.facts.retain(|header| !both.iter().any(|name| header.0 == name.as_bytes()));
    match random.below(4) {
        0 => lent.facts.retain(|header| header.0 != b"REMOTE_ADDR"),
        1 => lent.facts[0].1.clear(),
        2 => lent.facts.push(pair(random.pick(&both), random.pick(&["", "x"]).as_bytes())),
        _ => {
            let empty = random.below(3);
            for (at, name) in both.iter().enumerate() {
                lent.facts.push(pair(name, if at == empty || empty == 2 { b"" } else { b"x" }));
            }
        }
    }
}

fn breach_of_mounts(random: &mut Random, lent: &mut Lent) {
    let at = random.below(lent.mounts.len());
    let mount = &mut lent.mounts[at];
    match random.below(4) {
        0 => mount.name.push(b'/'),
        1 => mount.name[0] = random.pick(b"aA%."),
        2 => mount.pool.clear(),
        _ => mount.name = random.pick(&["/", "//", "jobs", "x/"]).as_bytes().to_vec(),
    }
}

/// What is no `;` and a limit of 0 to 1,048,576 in 1 to 10 digits; the last one is 5 where it wraps.
#[rustfmt::skip]
const BAD_LIMITS: &[&str] = &[
    ";", ";;", ";;5", ";5;", ";5;6", ";x", ";5x", "; 5", ";5 ", ";+5", ";-1", ";0x5", ";5.", ";1,000", ";1048577", ";00000000005",
    ";99999999999", ";18446744073709551621",
];

/// A bad limit of one of the mounts, whether or not it wins.
fn breach_of_limits(random: &mut Random, lent: &mut Lent) {
    let at = random.below(lent.mounts.len());
    lent.mounts[at].rest = match random.below(4) {
        0 => format!(";{}", digits::large(random)),
        1 => format!(";{}", digits::many(random)),
        _ => random.pick(BAD_LIMITS).to_string(),
    }
    .into_bytes();
}

fn repeat_a_name(random: &mut Random, lent: &mut Lent) {
    match random.below(3) {
        0 => repeat_one(random, &mut lent.facts),
        1 => repeat_one(random, &mut lent.site),
        _ => repeat_one(random, &mut lent.mounts),
    }
}

fn repeat_one<T: Clone>(random: &mut Random, headers: &mut Vec<T>) {
    if !headers.is_empty() {
        let again = headers[random.below(headers.len())].clone();
        headers.push(again);
    }
}
