//! One call with all that it is lent, run on either side, compared, printed, and read again from what was printed.
use crate::answers::*;
use crate::calls::{Archive, Blocks, Calls};
use crate::guarded::Guarded;
use crate::reference::Reference;
use crate::socket::Fed;

#[derive(Clone, Copy, Debug, PartialEq, Eq)]
pub enum Call {
    Read,
    Write,
    Find,
    Setting,
    Spool,
    Gateway,
    Response,
    /// A request fed to the socket reader: the inputs are the runs, from a new state on, and the output is the buffer.
    Feed,
}

/// Each call with its name, the count of its inputs, or none where any count will do, and the count of its numbers.
const CALLS: [(Call, &str, Option<usize>, usize); 8] = [
    (Call::Read, "read", Some(1), Places::COUNT),
    (Call::Write, "write", Some(2), Written::COUNT),
    (Call::Find, "find", Some(2), Found::COUNT),
    (Call::Setting, "setting", Some(3), Setting::COUNT),
    (Call::Spool, "spool", Some(1), SpoolEnd::COUNT),
    (Call::Gateway, "gateway", Some(4), Forwarded::COUNT),
    (Call::Response, "response", Some(2), Action::COUNT),
    (Call::Feed, "feed", None, Fed::COUNT),
];

impl Call {
    pub fn name(self) -> &'static str {
        CALLS[self as usize].1
    }

    /// How many numbers the call stores.
    pub fn numbers(self) -> usize {
        CALLS[self as usize].3
    }

    pub fn by_name(name: &str) -> Option<Call> {
        CALLS.iter().find(|entry| entry.1 == name).map(|entry| entry.0)
    }
}

/// Both sides with their names.
pub fn sides() -> [(&'static str, &'static dyn Calls); 2] {
    [("archive", &Archive), ("reference", &Reference)]
}

/// What a call is told and lent: the edition, its inputs in the order of its parameters, the length of its output or of its list of
/// lengths, and the length of its list of numbers.
#[derive(Clone, Debug, PartialEq, Eq)]
pub struct Case {
    pub call: Call,
    /// Any number for the response reader. The other calls are told no edition; it is 0 for them.
    pub edition: u64,
    pub inputs: Vec<Vec<u8>>,
    pub room: usize,
    pub answer_len: usize,
}

impl Case {
    /// A case of a call that is told no edition.
    pub fn new(call: Call, inputs: Vec<Vec<u8>>, room: usize) -> Self {
        Case { call, edition: 0, inputs, room, answer_len: call.numbers() }
    }

    /// A case of the response reader, which writes no output.
    pub fn response(edition: u64, method: &[u8], script: Vec<u8>) -> Self {
        Case { edition, ..Case::new(Call::Response, vec![method.to_vec(), script], 0) }
    }

    /// The case as one line: name, edition, room, length of the list of numbers, each input in hex.
    pub fn line(&self) -> String {
        let mut line = format!("{} {} {} {}", self.call.name(), self.edition, self.room, self.answer_len);
        for input in &self.inputs {
            line.push(' ');
            line.push('x');
            line.extend(input.iter().map(|byte| format!("{byte:02x}")));
        }
        line
    }

    /// The case of such a line.
    pub fn of_line(line: &str) -> Option<Case> {
        let mut words = line.split_whitespace();
        let call = Call::by_name(words.next()?)?;
        let edition = words.next()?.parse().ok()?;
        let room = words.next()?.parse().ok()?;
        let answer_len = words.next()?.parse().ok()?;
        let inputs: Vec<_> = words.map(bytes_of_hex).collect::<Option<_>>()?;
        let fits = CALLS[call as usize].2.is_none_or(|count| count == inputs.len());
        fits.then_some(Case { call, edition, inputs, room, answer_len })
    }
}

fn bytes_of_hex(word: &str) -> Option<Vec<u8>> {
    let digits = word.strip_prefix('x')?;
    let pairs = digits.as_bytes().chunks(2);
    pairs.map(|pair| u8::from_str_radix(std::str::from_utf8(pair).ok()?, 16).ok()).collect()
}

/// The memory that a call may write to.
pub struct Room<'a> {
    pub out: &'a mut [u8],
    pub lengths: &'a mut [u64],
    pub answer: &'a mut [u64],
}

/// Makes the case's call on one side, with the inputs as they are lent.
pub fn run(side: &dyn Calls, case: &Case, inputs: &[&[u8]], room: Room) -> u64 {
    let Room { out, lengths, answer } = room;
    match case.call {
        Call::Read => side.scgi_read(inputs[0], answer),
        Call::Write => side.scgi_write(inputs[0], inputs[1], out, answer),
        Call::Find => side.scgi_find(inputs[0], inputs[1], answer),
        Call::Setting => side.find_setting(inputs[0], inputs[1], inputs[2], answer),
        Call::Spool => side.read_spool(inputs[0], lengths, answer),
        Call::Gateway => {
            let blocks = Blocks { facts: inputs[0], site: inputs[1], mounts: inputs[2] };
            side.gateway(blocks, inputs[3], out, answer)
        }
        Call::Response => side.read_response(case.edition, inputs[0], inputs[1], answer),
        Call::Feed => feed(side, inputs, out, answer),
    }
}

/// Feeds the runs one after the other, a run of no bytes where there is none, and gives what the last one gave, its numbers in the list.
fn feed(side: &dyn Calls, runs: &[&[u8]], block: &mut [u8], answer: &mut [u64]) -> u64 {
    let first = runs.first().copied().unwrap_or_default();
    let mut fed = side.socket_feed(side.socket_new(), first, block);
    for run in runs.iter().skip(1) {
        fed = side.socket_feed(fed.state, run, block);
    }
    for (place, number) in answer.iter_mut().zip(fed.numbers()) {
        *place = number;
    }
    fed.refusal
}

/// What a call gave and left behind.
#[derive(Debug, PartialEq, Eq)]
pub struct Observed {
    pub code: u64,
    pub answer: Vec<u64>,
    pub out: Vec<u8>,
    pub lengths: Vec<u64>,
}

/// Bytes and numbers that stand in lent memory before a call.
pub fn before(len: usize) -> Vec<u8> {
    (0..len).map(|at| (at * 37) as u8 ^ 0xa5).collect()
}

pub fn numbers_before(len: usize) -> Vec<u64> {
    (0..len as u64).map(|at| at ^ 0xa5a5_a5a5_a5a5_a5a5).collect()
}

/// Makes the call with guards around all that is lent. Panics where a guard or an input changed.
pub fn observe(side: &dyn Calls, case: &Case) -> Observed {
    let (out_len, lengths_len) = if case.call == Call::Spool { (0, case.room) } else { (case.room, 0) };
    let inputs: Vec<_> = case.inputs.iter().map(|input| Guarded::new(input, 0xee)).collect();
    let mut out = Guarded::new(&before(out_len), 0xdd);
    let mut lengths = Guarded::new(&numbers_before(lengths_len), 0xcccc);
    let mut answer = Guarded::new(&numbers_before(case.answer_len), 0xbbbb);
    let lent: Vec<_> = inputs.iter().map(Guarded::content).collect();
    let room = Room { out: out.lend(), lengths: lengths.lend(), answer: answer.lend() };
    let code = run(side, case, &lent, room);
    let kept = inputs.iter().zip(&case.inputs).all(|(input, given)| input.is_intact() && input.content() == given);
    if !kept || !out.is_intact() || !lengths.is_intact() || !answer.is_intact() {
        panic!("{}: a write outside of what is lent for writing\n{}", case.call.name(), case.line());
    }
    Observed { code, answer: answer.content().to_vec(), out: out.content().to_vec(), lengths: lengths.content().to_vec() }
}

/// Makes the call on both sides and gives what the archive gave. Panics with the case where they differ.
pub fn compare(case: &Case) -> Observed {
    let archive = observe(&Archive, case);
    let reference = observe(&Reference, case);
    if archive != reference {
        let differs = |what: &str, same: bool| if same { String::new() } else { format!("; {what} differs") };
        panic!(
            "{}: the archive gave {} {:?}, the reference {} {:?}{}{}\n{}",
            case.call.name(),
            archive.code,
            archive.answer,
            reference.code,
            reference.answer,
            differs("the output", archive.out == reference.out),
            differs("the list of lengths", archive.lengths == reference.lengths),
            case.line()
        );
    }
    archive
}
