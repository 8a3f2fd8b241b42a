//! The socket reader: the archive against the independent implementation after each run, and both against the reader over all the bytes.
use oyinkafubo_host::answers::{self, Places};
use oyinkafubo_host::calls::{Archive, Calls};
use oyinkafubo_host::case::{before, sides, Call, Case};
use oyinkafubo_host::counts::Counts;
use oyinkafubo_host::generate::socket::{cuts, disturbed, room, runs, short_room};
use oyinkafubo_host::generate::{self, scgi};
use oyinkafubo_host::guarded::Guarded;
use oyinkafubo_host::random::Random;
use oyinkafubo_host::recorded;
use oyinkafubo_host::reference::Reference;
use oyinkafubo_host::refusal::{Refusal, MAX_BLOCK};
use oyinkafubo_host::socket::{stage, Fed, Socket, NEW};
use oyinkafubo_host::text::{bytes, EXAMPLE};
use std::mem;

const CUT: u64 = 1;
const ROOM: u64 = 21;

/// Both sides at one place of their input: the state that both gave, and a buffer for each.
struct Both {
    state: Socket,
    blocks: [Guarded<u8>; 2],
}

impl Both {
    fn new(state: Socket, block: &[u8]) -> Self {
        Both { state, blocks: [(); 2].map(|_| Guarded::new(block, 0xdd)) }
    }

    fn block(&self) -> &[u8] {
        self.blocks[0].content()
    }

    /// Feeds a run, with so many bytes of the buffer. Panics where the sides differ, in their buffers too, or a guard or the run changed.
    fn feed(&mut self, run: &[u8], room: usize) -> Fed {
        let lent = Guarded::new(run, 0xee);
        let front = self.block()[..self.state.len.min(self.block().len())].to_vec();
        let [ours, theirs] = &mut self.blocks;
        let archive = Archive.socket_feed(self.state, lent.content(), &mut ours.lend()[..room]);
        let reference = Reference.socket_feed(self.state, lent.content(), &mut theirs.lend()[..room]);
        let intact = lent.is_intact() && lent.content() == run && self.blocks.iter().all(Guarded::is_intact);
        let same = archive == reference && self.blocks[0].content() == self.blocks[1].content();
        let told = || format!("{:?}\nwith {room} bytes, from {front:02x?}\nthe run {run:02x?}", self.state);
        assert!(intact, "a write outside of the buffer\n{}", told());
        assert!(same, "the archive gave {archive:?}\nthe reference {reference:?}, or the buffers differ\n{}", told());
        self.state = archive.state;
        archive
    }

    /// A call with too short a buffer is 21 and changes nothing.
    fn feed_short(&mut self, run: &[u8], room: usize) {
        let (state, block) = (self.state, self.block().to_vec());
        let fed = self.feed(run, room);
        assert_eq!(fed, Fed { state, refusal: ROOM, body: 0, after: 0, block_len: 0, body_len: 0, used: 0 }, "with {room} bytes");
        assert_eq!(self.block(), block, "with {room} bytes");
    }
}

/// The state that the bytes which have come must give, and those of them that are the block's and the body's; from what the reader makes
/// of them all, without any state before.
fn known(came: &[u8], read: Result<Places, Refusal>) -> (Socket, &[u8], &[u8]) {
    let digits = came.iter().take_while(|byte| byte.is_ascii_digit()).count();
    let len = String::from_utf8_lossy(&came[..digits]).parse().unwrap_or(0);
    let rest = came.get(digits + 1..).unwrap_or_default();
    let block = &rest[..rest.len().min(len)];
    match read {
        Err(number @ 2..) => {
            let refused = Socket { stage: stage::REFUSED, refusal: number.into(), ..NEW };
            (refused, if number > 3 { block } else { b"" }, b"")
        }
        Err(_) if came.len() == digits => (Socket { digits, len, ..NEW }, b"", b""),
        Err(_) if rest.len() <= len => (Socket { stage: stage::BLOCK, digits, len, stored: block.len(), ..NEW }, block, b""),
        _ => {
            let found = Archive.find(block, b"CONTENT_LENGTH").expect("a block");
            let value = &block[found.start as usize..(found.start + found.len) as usize];
            let body: usize = String::from_utf8_lossy(value).parse().expect("a body length");
            let seen = &rest[len + 1..rest.len().min(len + 1 + body)];
            let stage = if read.is_ok() { stage::WHOLE } else { stage::BODY };
            (Socket { stage, digits, len, stored: len, body, seen: seen.len(), ..NEW }, block, seen)
        }
    }
}

/// A request that both sides are fed from a new state on, with all that came and the body as the counts give it.
struct Feeding {
    both: Both,
    lent: Vec<u8>,
    came: Vec<Vec<u8>>,
    body: Vec<u8>,
    end: Option<Fed>,
}

impl Feeding {
    /// Begins a request with this buffer.
    fn new(lent: &[u8]) -> Self {
        let [archive, reference] = sides().map(|(_, side)| side.socket_new());
        assert_eq!((archive, reference), (NEW, NEW));
        Feeding { both: Both::new(NEW, lent), lent: lent.to_vec(), came: Vec::new(), body: Vec::new(), end: None }
    }

    /// Feeds a run and holds what it gives to the reader over all the bytes, or after the end to the answer that the end gave.
    fn feed(&mut self, run: &[u8]) -> Fed {
        let left = self.both.block().to_vec();
        let fed = self.both.feed(run, self.lent.len());
        self.came.push(run.to_vec());
        if let Some(end) = self.end {
            assert_eq!(fed, Fed { body: 0, after: run.len(), ..end }, "after the end\n{}", self.line());
            assert_eq!(self.both.block(), left, "after the end\n{}", self.line());
            return fed;
        }
        let body_end = run.len() - fed.after;
        self.body.extend_from_slice(&run[body_end - fed.body..body_end]);
        self.check(&fed);
        self.end = (fed.refusal != CUT).then_some(fed);
        fed
    }

    fn check(&self, fed: &Fed) {
        let came = self.came.concat();
        let [read, same] = sides().map(|(_, side)| side.read(&came));
        assert_eq!(read, same, "{}", self.line());
        let (state, block, body) = known(&came, read);
        let expected = match read {
            Ok(places) => [0, places.block_len, places.body_len, places.used, came.len() as u64 - places.used],
            Err(number) => [number.into(), 0, 0, 0, 0],
        };
        let given = [fed.refusal, fed.block_len as u64, fed.body_len as u64, fed.used as u64, fed.after as u64];
        assert_eq!((fed.state, given), (state, expected), "{}", self.line());
        let (front, rest) = self.both.block().split_at(block.len());
        assert!(front == block && rest == &self.lent[block.len()..], "the buffer\n{}", self.line());
        assert!(self.body == body, "the body's bytes\n{}", self.line());
    }

    /// What was fed, as a line for OY_CASE.
    fn line(&self) -> String {
        Case::new(Call::Feed, self.came.clone(), self.lent.len()).line()
    }
}

/// Feeds the bytes cut at these places, a run of no bytes and one more; gives the answer.
fn feed_cut(lent: &[u8], bytes: &[u8], cuts: &[usize]) -> u64 {
    let mut feeding = Feeding::new(lent);
    for run in runs(bytes, cuts) {
        feeding.feed(run);
    }
    let given = feeding.feed(b"").refusal;
    if given != CUT {
        feeding.feed(b"24:");
    }
    given
}

/// Feeds the bytes in one run, in every two runs, byte by byte, and if they are few in every three runs; gives the answer.
fn feed_every_cut(bytes: &[u8]) -> u64 {
    let lent = before(MAX_BLOCK);
    let given = feed_cut(&lent, bytes, &[]);
    let every_byte: Vec<usize> = (1..bytes.len()).collect();
    assert_eq!(feed_cut(&lent, bytes, &every_byte), given);
    for first in 0..=bytes.len() {
        assert_eq!(feed_cut(&lent, bytes, &[first]), given);
        if bytes.len() <= EXAMPLE.len() {
            for second in first..=bytes.len() {
                assert_eq!(feed_cut(&lent, bytes, &[first, second]), given);
            }
        }
    }
    given
}

#[test]
fn every_cut_of_recorded_requests() {
    let files: Vec<_> = recorded::all().into_iter().filter(|recorded| recorded.case.call == Call::Read).collect();
    assert_eq!(files.len(), 52);
    for recorded in files {
        let expected = recorded.expected.err().unwrap_or(0);
        assert_eq!(feed_every_cut(&recorded.case.inputs[0]), expected, "{}", recorded.file);
    }
}

/// Short requests, and for each refusal the shortest inputs that bring it.
#[test]
fn every_cut_of_short_inputs() {
    let many = format!("387:{},", "A||".repeat(129));
    let cases = [
        (0, vec!["24:CONTENT_LENGTH|0|SCGI|1|,", "24:CONTENT_LENGTH|3|SCGI|1|,abc", "24:CONTENT_LENGTH|3|SCGI|1|,abc24:", EXAMPLE]),
        (1, vec!["", "0", "24", "16384", "0:", "16384:A", "24:CONTENT_LENGTH|3|SCGI|1|", "24:CONTENT_LENGTH|3|SCGI|1|,ab"]),
        (2, vec![":", ",", "x", "05", "00:,", "1x", "24,", "16384x", "016385", " 1:"]),
        (3, vec!["16385", "16385:", "16390x", "99999", "163840", "100000"]),
        (4, vec!["0:x", "0:0", "0:|", "3:|||;", "24:CONTENT_LENGTH|3|SCGI|1|;abc"]),
        (5, vec!["1:|,", "1:A,", "2:A|,x", "4:A||A,", "24:CONTENT_LENGTH|3|SCGI|1,,abc"]),
        (6, vec![&many]),
        (7, vec!["6:A||A||,", "31:CONTENT_LENGTH|3|SCGI|1|SCGI|1|,abc"]),
        (8, vec!["0:,", "3:A||,", "16:CONTENT_LENGTH||,", "34:CONTENT_LENGTH|00000000003|SCGI|1|,abc"]),
        (9, vec!["30:CONTENT_LENGTH|1048577|SCGI|1|,", "23:CONTENT_LENGTH|1048577|,abc"]),
        (10, vec!["17:CONTENT_LENGTH|0|,", "24:CONTENT_LENGTH|3|SCGI|2|,abc"]),
    ];
    for (number, texts) in cases {
        for text in texts {
            assert_eq!(feed_every_cut(&bytes(text)), number, "{text}");
        }
    }
}

/// Runs of any lengths, too short a buffer now and then, and runs after the end.
#[test]
fn random_cuttings() {
    let mut random = Random::seeded("random cuttings");
    let mut counts = Counts::new("random cuttings");
    for _ in 0..15_000 {
        let case = generate::case(&mut random, Call::Feed);
        let mut feeding = Feeding::new(&before(case.room));
        for run in &case.inputs {
            if random.chance(5) {
                feeding.both.feed_short(run, short_room(&mut random));
            }
            feeding.feed(run);
        }
        let given = feeding.feed(b"").refusal;
        counts.count(given);
        if given != CUT {
            let len = random.small();
            feeding.feed(&random.bytes(len));
            feeding.both.feed_short(b"x", short_room(&mut random));
            feeding.feed(&case.inputs.concat());
        }
    }
    counts.assert_seen(&[1, 2, 3, 4, 5, 6, 7, 8, 9, 10]);
    counts.assert_accepted();
}

/// What comes after the end of a request is fed to a new state, with the buffer as it is: the lengths and the ending are the spool's.
#[test]
fn requests_end_to_end() {
    let mut random = Random::seeded("fed end to end");
    let mut endings = [0; 3];
    for _ in 0..5_000 {
        let spool = scgi::spool_case(&mut random).inputs.remove(0);
        let mut feeding = Feeding::new(&before(room(&mut random)));
        let mut lengths = Vec::new();
        for run in runs(&spool, &cuts(&mut random, spool.len())) {
            let mut fed = feeding.feed(run);
            while fed.refusal == 0 {
                lengths.push(fed.used as u64);
                feeding = Feeding::new(feeding.both.block());
                fed = feeding.feed(&run[run.len() - fed.after..]);
            }
        }
        let (ending, number) = match feeding.both.state {
            NEW => (answers::WHOLE, 0),
            Socket { stage: stage::REFUSED, refusal, .. } => (answers::REFUSED, refusal as u64),
            _ => (answers::CUT, 0),
        };
        let mut stored = vec![0; lengths.len()];
        let end = Archive.spool(&spool, &mut stored).expect("a spool has an ending");
        assert_eq!((end.ending, end.number, stored), (ending, number, lengths));
        endings[ending as usize] += 1;
    }
    println!("fed end to end: endings {endings:?}");
    assert!(endings.iter().all(|&spools| spools > 300), "endings: {endings:?}");
}

/// States with wild numbers: only numbers of this call are answered, and too short a buffer leaves even such a state as it is.
#[test]
fn states_that_no_call_gave() {
    let mut random = Random::seeded("states that no call gave");
    let mut counts = Counts::new("states that no call gave");
    for _ in 0..60_000 {
        let input = scgi::read_input(&mut random);
        let (first, second) = input.split_at(random.below(input.len().min(20_000) + 1));
        let mut block = before(room(&mut random));
        let came = Archive.socket_feed(NEW, first, &mut block).state;
        let mut both = Both::new(disturbed(&mut random, came), &block);
        if random.chance(5) {
            both.feed_short(second, short_room(&mut random));
            counts.count(ROOM);
        }
        for run in runs(second, &cuts(&mut random, second.len()).into_iter().take(3).collect::<Vec<_>>()) {
            counts.count(both.feed(run, block.len()).refusal);
        }
    }
    counts.assert_seen(&[1, 2, 3, 4, 5, 6, 7, 8, 9, 10, 21]);
    assert!(counts.seen[0] > 1_000, "few whole requests: {}", counts.seen[0]);
}

/// A stage or a refusal that is none makes the state a new one; with a refusal that is one, every other number is taken as 0.
#[test]
fn stages_and_refusals_that_are_none() {
    let block = before(MAX_BLOCK);
    let given = |state: Socket, run: &[u8]| {
        let mut both = Both::new(state, &block);
        let fed = both.feed(run, MAX_BLOCK);
        assert_eq!(both.block(), block, "{state:?}");
        fed
    };
    let new = Socket { digits: 1, len: 1, ..NEW };
    for refusal in [0, 1, 2, 10, 11, 21, 99, 255, 256, 258, usize::MAX] {
        let fed = given(Socket { refusal, ..Socket::of([stage::REFUSED; 7]) }, b"1");
        if (2..=10).contains(&refusal) {
            let refused = Socket { stage: stage::REFUSED, refusal, ..NEW };
            assert_eq!((fed.state, fed.refusal, fed.body, fed.after), (refused, refusal as u64, 0, 1));
        } else {
            assert_eq!((fed.state, fed.refusal, fed.body, fed.after), (new, CUT, 0, 0), "refusal {refusal}");
        }
    }
    for stage in [5, 256, 260, 1 << 32, usize::MAX] {
        for refusal in [0, 2, 7] {
            let fed = given(Socket { stage, refusal, ..Socket::of([3; 7]) }, b"1");
            assert_eq!((fed.state, fed.refusal, fed.body, fed.after), (new, CUT, 0, 0), "stage {stage}");
        }
    }
}

/// The largest numbers at each stage, brought within their limits.
#[test]
fn numbers_above_their_limits() {
    let largest = |stage| Socket { stage, ..Socket::of([usize::MAX; 7]) };
    let limits = Socket { stage: stage::WHOLE, refusal: 0, digits: 16_385, len: 16_384, stored: 16_384, body: 1_048_576, seen: 1_048_576 };
    let whole = Fed { state: limits, refusal: 0, body: 0, after: 1, block_len: 16_384, body_len: 1_048_576, used: 1_081_347 };
    let given = |stage, run| Both::new(largest(stage), &before(MAX_BLOCK)).feed(run, MAX_BLOCK);
    assert_eq!(given(stage::WHOLE, b"x"), whole);
    assert_eq!(given(stage::BODY, b"x"), whole);
    assert_eq!(given(stage::BLOCK, b"x").refusal, 4);
    assert_eq!(given(stage::BLOCK, b",").refusal, 5);
    assert_eq!(given(stage::LENGTH, b"0").refusal, 3);
    assert_eq!(given(stage::LENGTH, b":").state, Socket { stage: stage::BLOCK, digits: 16_385, len: 16_384, ..NEW });
    assert_eq!(given(stage::LENGTH, b"").state, Socket { digits: 16_385, len: 16_384, ..NEW });
}

/// The example of the SCGI text in one run with a byte after it, then after the end, on each side.
#[test]
fn the_example_in_one_run() {
    let run = [&bytes(EXAMPLE)[..], b"x"].concat();
    let state = Socket { stage: stage::WHOLE, refusal: 0, digits: 2, len: 70, stored: 70, body: 27, seen: 27 };
    let whole = Fed { state, refusal: 0, body: 27, after: 1, block_len: 70, body_len: 27, used: 101 };
    for (name, side) in sides() {
        let mut block = before(MAX_BLOCK + 1);
        assert_eq!(side.socket_feed(side.socket_new(), &run, &mut block), whole, "{name}");
        assert_eq!(block[..70], run[3..73], "{name}");
        assert_eq!(block[70..], before(MAX_BLOCK + 1)[70..], "{name}");
        assert_eq!(side.socket_feed(state, b"", &mut block), Fed { body: 0, after: 0, ..whole }, "{name}");
        assert_eq!(side.socket_feed(state, b"70:", &mut block), Fed { body: 0, after: 3, ..whole }, "{name}");
    }
}

/// A request's block and body.
type Served = (Vec<u8>, Vec<u8>);

/// The worker's loop of the header: the requests that it serves, and the refusal that ends it, or the state at the end of the input.
fn worker(reads: &[&[u8]]) -> (Vec<Served>, Result<Socket, u64>) {
    let mut block = vec![0; MAX_BLOCK];
    let mut state = Archive.socket_new();
    let (mut served, mut body) = (Vec::new(), Vec::new());
    for run in reads {
        let mut at = 0;
        while at < run.len() {
            let fed = Archive.socket_feed(state, &run[at..], &mut block);
            let end = run.len() - fed.after;
            state = fed.state;
            body.extend_from_slice(&run[end - fed.body..end]);
            if fed.refusal == CUT {
                break;
            }
            if fed.refusal != 0 {
                return (served, Err(fed.refusal));
            }
            assert_eq!(body.len(), fed.body_len);
            served.push((block[..fed.block_len].to_vec(), mem::take(&mut body)));
            at = end;
            state = Archive.socket_new();
        }
    }
    (served, Ok(state))
}

/// What the reader gives of the same bytes, which are all there.
fn served_at_once(mut rest: &[u8]) -> (Vec<Served>, Result<bool, u64>) {
    let mut served = Vec::new();
    loop {
        match Archive.read(rest) {
            Ok(places) => {
                let [block, block_len, body, body_len, used] = places.numbers().map(|number| number as usize);
                served.push((rest[block..block + block_len].to_vec(), rest[body..body + body_len].to_vec()));
                rest = &rest[used..];
            }
            Err(1) => return (served, Ok(!rest.is_empty())),
            Err(number) => return (served, Err(number.into())),
        }
    }
}

/// Requests end to end, the last one often cut or refused, read in any runs; a request was cut where the header says so.
#[test]
fn the_worker_of_the_header() {
    let mut random = Random::seeded("worker");
    let mut seen = [0; 3];
    for _ in 0..20_000 {
        let bytes = scgi::spool_case(&mut random).inputs.remove(0);
        let (served, end) = worker(&runs(&bytes, &cuts(&mut random, bytes.len())));
        let was_cut = end.map(|state| state.stage != stage::LENGTH || state.digits != 0);
        assert!((served, was_cut) == served_at_once(&bytes), "{}", Case::new(Call::Spool, vec![bytes], 100).line());
        seen[was_cut.map_or(2, usize::from)] += 1;
    }
    println!("worker: whole, cut, refused: {seen:?}");
    assert!(seen.iter().all(|&inputs| inputs > 1_000), "inputs: {seen:?}");
}
