//! Good HTTP requests in parts.
use super::digits;
use super::lent::Mount;
use crate::random::Random;
use crate::refusal::MAX_BODY;

/// A request in parts, so that one part can be made wrong.
#[derive(Clone)]
pub struct Draft {
    pub method: Vec<u8>,
    pub target: Vec<u8>,
    pub version: Vec<u8>,
    /// Field lines without their ends.
    pub fields: Vec<Vec<u8>>,
    pub body: Vec<u8>,
    /// The limit of the mount that the target is under.
    pub limit: usize,
}

impl Draft {
    pub fn bytes(&self) -> Vec<u8> {
        let mut bytes = [&self.method[..], &self.target, &self.version].join(&b' ');
        bytes.extend_from_slice(b"\r\n");
        for field in &self.fields {
            bytes.extend_from_slice(field);
            bytes.extend_from_slice(b"\r\n");
        }
        bytes.extend_from_slice(b"\r\n");
        bytes.extend_from_slice(&self.body);
        bytes
    }

    /// Puts a field line in any place.
    pub fn insert(&mut self, random: &mut Random, field: &[u8]) {
        let at = random.below(self.fields.len() + 1);
        self.fields.insert(at, field.to_vec());
    }

    /// States a length of the body in place of the one before.
    pub fn state(&mut self, random: &mut Random, stated: &str) {
        self.remove("Content-Length");
        self.insert(random, format!("Content-Length: {stated}").as_bytes());
    }

    /// Takes out the field lines of a name.
    pub fn remove(&mut self, name: &str) {
        let prefix = format!("{name}:").to_ascii_lowercase().into_bytes();
        self.fields.retain(|field| !field.to_ascii_lowercase().starts_with(&prefix));
    }
}

const METHODS: &[&str] = &["GET", "GET", "POST", "HEAD", "get", "M_1", "!#$%&'*+-.^_`|~"];
#[rustfmt::skip]
const NAMES: &[&str] = &[
    "Accept", "ACCEPT", "accept", "X-Job-Id", "x-job-id", "XJobId", "Cookie", "cookie", "COOKIE", "Cookie2", "cookie2", "Set-Cookie",
    "Connection", "Keep-Alive", "Proxy", "PROXY", "Authorization", "Proxy-Authorization", "TE", "Upgrade", "Trailer", "Host-",
    "Contents-Length", "X!#$%&'*+.^`|~9", "A", "a", "AB",
];
const VALUES: &[&str] = &["", "x", "a, b", "\u{e9}\u{ff}", "x\ty", "1", "close", "q=1; r=2", "a;", "; a", "text/plain", "~ ~", ":", ": ,"];

/// A good request to one of the mounts.
pub fn good(random: &mut Random, mounts: &[Mount]) -> Draft {
    let is_1_1 = random.chance(70);
    let mount = &mounts[random.below(mounts.len())];
    let mut draft = Draft {
        method: random.pick(METHODS).as_bytes().to_vec(),
        target: target(random, &mount.name),
        version: if is_1_1 { b"HTTP/1.1".to_vec() } else { b"HTTP/1.0".to_vec() },
        fields: Vec::new(),
        body: Vec::new(),
        limit: mount.limit,
    };
    for _ in 0..random.small() {
        let field = field(random);
        draft.fields.push(field);
    }
    if is_1_1 || random.chance(50) {
        let host = random.pick(&["Host: q.example", "host:", "HOST:\t q.example:80 ", "hOST: a b"]);
        draft.insert(random, host.as_bytes());
    }
    if random.chance(40) {
        add_body(random, &mut draft);
    }
    if random.chance(30) {
        let kind = random.pick(&["Content-Type: text/plain", "content-type:", "CONTENT-TYPE: \t"]);
        draft.insert(random, kind.as_bytes());
    }
    draft
}

/// A body of at most the limit, often of just as many bytes where that is not many.
fn add_body(random: &mut Random, draft: &mut Draft) {
    let drawn = match random.below(2000) {
        0 => random.around(MAX_BODY),
        1..=40 => random.below(3000),
        41..=1000 if draft.limit < 3000 => draft.limit,
        _ => random.small(),
    };
    let len = drawn.min(draft.limit);
    draft.body = vec![random.number() as u8; len];
    let stated = digits::few(random, len);
    let name = random.pick(&["Content-Length", "content-length", "CONTENT-LENGTH"]);
    draft.insert(random, format!("{name}: {stated}").as_bytes());
}

/// A field line of any name and value.
pub fn field(random: &mut Random) -> Vec<u8> {
    let blank = |random: &mut Random| random.pick(&["", " ", " ", "\t", " \t "]);
    let (before, after) = (blank(random), blank(random));
    format!("{}:{before}{}{after}", random.pick(NAMES), random.pick(VALUES)).into_bytes()
}

/// A target under a mount, sometimes under a longer one.
fn target(random: &mut Random, mount: &[u8]) -> Vec<u8> {
    let mut path = mount.to_vec();
    for _ in 0..random.small().min(6) {
        path.extend_from_slice(random.pick(&["/7", "/", "/a.b", "/...", "/x y", "/\u{e9}", "/b", "/old", "/%"]).as_bytes());
    }
    let mut target = Vec::new();
    for byte in path {
        escape(random, byte, &mut target);
    }
    if random.chance(50) {
        target.extend_from_slice(random.pick(&["?", "?x=1", "?a?b", "?%2F%00", "?/../.", "?x=%7e&y"]).as_bytes());
    }
    target
}

/// The byte as it is, or as an escape where it has to be one and now and then where it need not.
fn escape(random: &mut Random, byte: u8, target: &mut Vec<u8>) {
    let plain = byte.is_ascii_alphanumeric() || b"-._~!$&'()*+,;=:@/".contains(&byte);
    if plain && (byte == b'/' || random.chance(95)) {
        target.push(byte);
    } else if random.chance(50) {
        target.extend(format!("%{byte:02x}").bytes());
    } else {
        target.extend(format!("%{byte:02X}").bytes());
    }
}
