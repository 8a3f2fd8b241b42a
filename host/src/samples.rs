//! Inputs of the benchmarks.
use crate::answers::RFC_3875;
use crate::calls::{Archive, Calls};
use crate::case::{before, numbers_before, run, Call, Case, Room};
use crate::generate::{block, pair};
use crate::recorded;
use crate::refusal::{MAX_BLOCK, MAX_BODY, MAX_FIELDS, MAX_HEADERS};
use crate::text;
use std::hint::black_box;

/// Cases of one call that are run one after the other.
pub struct Sample {
    pub call: Call,
    pub input: &'static str,
    pub cases: Vec<Case>,
}

impl Sample {
    fn new(call: Call, input: &'static str, cases: Vec<Case>) -> Self {
        Sample { call, input, cases }
    }

    /// Bytes of all inputs together, without the lent blocks of the gateway and without the method of a response.
    pub fn bytes(&self) -> usize {
        let beside = match self.call {
            Call::Gateway => 3,
            Call::Response => 1,
            _ => 0,
        };
        self.cases.iter().flat_map(|case| &case.inputs[beside..]).map(Vec::len).sum()
    }

    /// Runs each case `times` times on one side.
    pub fn repeat(&self, side: &dyn Calls, times: usize) {
        for case in &self.cases {
            let inputs: Vec<&[u8]> = case.inputs.iter().map(|input| &input[..]).collect();
            let mut out = before(case.room);
            let mut lengths = numbers_before(if case.call == Call::Spool { case.room } else { 0 });
            let mut answer = [0; 6];
            for _ in 0..times {
                let room = Room { out: &mut out, lengths: &mut lengths, answer: &mut answer };
                let code = run(side, black_box(case), black_box(&inputs), room);
                assert_eq!(black_box(code), 0, "{}: {} is refused", self.call.name(), self.input);
            }
        }
    }
}

/// Sizes that every kind of request is made in: its name, headers or fields, and body bytes.
const SIZES: [(&str, usize, usize); 4] =
    [("10 fields, about 500 bytes", 10, 0), ("64 fields", MAX_FIELDS, 0), ("128 headers", MAX_HEADERS, 0), ("1 MiB body", 10, MAX_BODY)];

/// A block with this many headers, about 59 bytes each.
fn scgi_block(headers: usize, body_len: usize) -> Vec<u8> {
    let mut pairs = vec![pair("CONTENT_LENGTH", body_len.to_string().as_bytes()), pair("SCGI", b"1")];
    for at in 2..headers {
        pairs.push(pair(&format!("HTTP_X_HEADER_NUMBER_{at}"), format!("value of the request's header no. {at}").as_bytes()));
    }
    block(&pairs)
}

fn scgi_request(block: &[u8], body_len: usize) -> Vec<u8> {
    let mut bytes = format!("{}:", block.len()).into_bytes();
    bytes.extend_from_slice(block);
    bytes.push(b',');
    bytes.resize(bytes.len() + body_len, b'b');
    bytes
}

/// The name with a number, of a block's names.
type NameOf = fn(usize) -> Vec<u8>;

/// What the 128 names of a block are like.
const NAMES: [(&str, NameOf); 3] = [
    ("128 names, no two of one length", long_name),
    ("128 names, differ in the first byte", first_differs),
    ("128 names, differ in the last byte", last_differs),
];

/// The names but CONTENT_LENGTH and SCGI, at = 0 to 125: lengths of 1 to 128 bytes but 4 and 14, which those two have.
fn long_name(at: usize) -> Vec<u8> {
    let len = (1..).filter(|len| ![4, 14].contains(len)).nth(at).unwrap();
    vec![b'N'; len]
}

/// A byte for each of the names, no NUL and no first byte of the other two.
fn own_byte(at: usize) -> u8 {
    (1..=255).filter(|byte| !b"CS".contains(byte)).nth(at).unwrap()
}

fn first_differs(at: usize) -> Vec<u8> {
    [&[own_byte(at)], &b"_HEADER_OF_ONE_LENGTH"[..]].concat()
}

fn last_differs(at: usize) -> Vec<u8> {
    [b"HEADER_OF_ONE_LENGTH_", &[own_byte(at)][..]].concat()
}

/// A block of 128 headers by their names.
fn named_block(name: NameOf) -> Vec<u8> {
    let mut pairs = vec![pair("CONTENT_LENGTH", b"0"), pair("SCGI", b"1")];
    pairs.extend((0..MAX_HEADERS - 2).map(|at| (name(at), b"v".to_vec())));
    block(&pairs)
}

/// Field lines, about 54 bytes each with their ends.
fn field_lines(count: usize) -> String {
    (0..count).map(|at| format!("X-Field-Number-{at}: value of the request's field no. {at}\r\n")).collect()
}

fn http_case(fields: usize, body_len: usize) -> Case {
    let lines = field_lines(fields - 2);
    let head = format!("POST /app/jobs/7?x=1 HTTP/1.1\r\nHost: q.example\r\nContent-Length: {body_len}\r\n{lines}\r\n");
    let mut bytes = head.into_bytes();
    bytes.resize(bytes.len() + body_len, b'b');
    let room = bytes.len() + 20_000;
    let mut inputs = recorded::blocks("10.0.0.9", "/app", "a");
    inputs.push(bytes);
    Case::new(Call::Gateway, inputs, room)
}

fn response_case(fields: usize, body_len: usize) -> Case {
    let mut bytes = format!("Content-Type: text/plain\r\n{}\r\n", field_lines(fields - 1)).into_bytes();
    bytes.resize(bytes.len() + body_len, b'b');
    Case::response(RFC_3875, b"GET", bytes)
}

/// The recorded cases of the call that are accepted, with room enough for the C peer, which asks for more than it needs.
fn recorded_cases(call: Call) -> Vec<Case> {
    let accepted = recorded::all().into_iter().filter(|recorded| recorded.expected.is_ok());
    let cases = accepted.map(|recorded| recorded.case).filter(|case| case.call == call);
    cases.map(|case| Case { room: case.room + 20_000, ..case }).collect()
}

/// The recorded requests as blocks and bodies for the writer.
fn recorded_writes() -> Vec<Case> {
    let mut cases = Vec::new();
    for case in recorded_cases(Call::Read) {
        let bytes = &case.inputs[0];
        if let Ok(places) = Archive.read(bytes) {
            let [block, block_len, body, body_len, used] = places.numbers().map(|number| number as usize);
            let inputs = vec![bytes[block..block + block_len].to_vec(), bytes[body..body + body_len].to_vec()];
            cases.push(Case::new(Call::Write, inputs, used));
        }
    }
    cases
}

fn spool_samples() -> Vec<Sample> {
    let joined: Vec<u8> = recorded_cases(Call::Read).iter().flat_map(|case| case.inputs[0].clone()).collect();
    vec![
        Sample::new(Call::Spool, "recorded, end to end", vec![Case::new(Call::Spool, vec![joined], 100)]),
        Sample::new(Call::Spool, "1,000 of 101 bytes", vec![Case::new(Call::Spool, vec![text::bytes(text::EXAMPLE).repeat(1000)], 1000)]),
    ]
}

/// A request that the socket reader takes in runs of a length, the last one shorter.
fn feed_sample(input: &'static str, request: &[u8], run_len: usize) -> Sample {
    let runs = request.chunks(run_len).map(<[u8]>::to_vec).collect();
    Sample::new(Call::Feed, input, vec![Case::new(Call::Feed, runs, MAX_BLOCK)])
}

/// The times are those of all the calls for one request: 65 and 101.
fn feed_samples() -> [Sample; 2] {
    let large = scgi_request(&scgi_block(10, MAX_BODY), MAX_BODY);
    let small = text::bytes(text::EXAMPLE);
    [feed_sample("1 MiB body, in runs of 16 KiB", &large, 16_384), feed_sample("101 bytes of the SCGI text, byte by byte", &small, 1)]
}

/// Every sample, ordered by call.
pub fn all() -> Vec<Sample> {
    let mut samples = vec![
        Sample::new(Call::Read, "recorded", recorded_cases(Call::Read)),
        Sample::new(Call::Write, "recorded", recorded_writes()),
        Sample::new(Call::Gateway, "recorded", recorded_cases(Call::Gateway)),
        Sample::new(Call::Response, "recorded", recorded_cases(Call::Response)),
    ];
    for (input, count, body_len) in SIZES {
        let block = scgi_block(count, body_len);
        samples.push(Sample::new(Call::Read, input, vec![Case::new(Call::Read, vec![scgi_request(&block, body_len)], 0)]));
        let parts = vec![block, vec![b'b'; body_len]];
        samples.push(Sample::new(Call::Write, input, vec![Case::new(Call::Write, parts, 20_000 + body_len)]));
        if count <= MAX_FIELDS {
            samples.push(Sample::new(Call::Gateway, input, vec![http_case(count, body_len)]));
            samples.push(Sample::new(Call::Response, input, vec![response_case(count, body_len)]));
        }
    }
    for (input, name) in NAMES {
        let block = named_block(name);
        samples.push(Sample::new(Call::Read, input, vec![Case::new(Call::Read, vec![scgi_request(&block, 0)], 0)]));
        samples.push(Sample::new(Call::Write, input, vec![Case::new(Call::Write, vec![block, Vec::new()], 20_000)]));
    }
    samples.extend(spool_samples());
    samples.extend(feed_samples());
    samples.sort_by_key(|sample| sample.call as usize);
    samples
}
