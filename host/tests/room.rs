//! Every length of the output, of the list of lengths and of the list of numbers around the exact one, and the stack, on the archive.
use oyinkafubo_host::calls::Archive;
use oyinkafubo_host::case::{before, compare, numbers_before, observe, Call, Case, Observed};
use oyinkafubo_host::generate;
use oyinkafubo_host::random::Random;
use oyinkafubo_host::recorded;
use std::thread;

const ROOM: u64 = 21;

/// Nothing that was lent has changed.
fn assert_unchanged(case: &Case, observed: &Observed) {
    let unchanged = observed.answer == numbers_before(observed.answer.len())
        && observed.out == before(observed.out.len())
        && observed.lengths == numbers_before(observed.lengths.len());
    assert!(unchanged, "{}: a refusal changed what was lent\n{}", case.call.name(), case.line());
}

/// Small cases of the call that are accepted, with room enough.
fn accepted(call: Call, count: usize) -> Vec<Case> {
    let mut random = Random::seeded(&format!("room of {}", call.name()));
    let mut cases = Vec::new();
    while cases.len() < count {
        let mut case = generate::case(&mut random, call);
        let size: usize = case.inputs.iter().map(Vec::len).sum();
        case.room = size + 1000;
        case.answer_len = call.numbers();
        if size < 800 && observe(&Archive, &case).code == 0 {
            cases.push(case);
        }
    }
    cases
}

/// Each length of the output from 0 to two above the bytes written: 21 and nothing changed, or the same bytes and the rest left.
fn every_output_length(call: Call) {
    for full in accepted(call, 40) {
        let whole = observe(&Archive, &full);
        let n = whole.answer[0] as usize;
        for room in 0..=n + 2 {
            let case = Case { room, ..full.clone() };
            let observed = compare(&case);
            if room < n {
                assert_eq!(observed.code, ROOM, "room {room} of {n}\n{}", case.line());
                assert_unchanged(&case, &observed);
            } else {
                assert_eq!((observed.code, &observed.answer), (0, &whole.answer), "room {room} of {n}\n{}", case.line());
                assert_eq!(observed.out[..n], whole.out[..n], "the bytes written\n{}", case.line());
                assert_eq!(observed.out[n..], before(room)[n..], "the bytes past those written\n{}", case.line());
            }
        }
    }
}

/// Each length of the list of numbers from 0 to two above: too short is 21 after every other refusal, and then nothing is changed.
fn every_answer_length(call: Call) {
    let mut random = Random::seeded(&format!("answers of {}", call.name()));
    let needed = call.numbers();
    for _ in 0..1500 {
        let full = Case { answer_len: needed, ..generate::case(&mut random, call) };
        let whole = observe(&Archive, &full);
        for answer_len in 0..=needed + 2 {
            let case = Case { answer_len, ..full.clone() };
            let observed = compare(&case);
            let short = answer_len < needed;
            let expected = if whole.code == 0 && short { ROOM } else { whole.code };
            assert_eq!(observed.code, expected, "{answer_len} numbers\n{}", case.line());
            if observed.code != 0 {
                assert_unchanged(&case, &observed);
            } else {
                assert_eq!(observed.answer[..needed], whole.answer, "the numbers\n{}", case.line());
                assert_eq!(observed.answer[needed..], numbers_before(answer_len)[needed..], "entries not used\n{}", case.line());
                assert_eq!((observed.out, observed.lengths), (whole.out.clone(), whole.lengths.clone()), "{}", case.line());
            }
        }
    }
}

#[test]
fn output_of_the_writer() {
    every_output_length(Call::Write);
}

#[test]
fn output_of_the_gateway() {
    every_output_length(Call::Gateway);
}

/// A list shorter than the spool ends it as full; entries that are not used stay.
#[test]
fn lengths_of_the_spool() {
    for full in accepted(Call::Spool, 300) {
        let whole = observe(&Archive, &full);
        let stored = whole.answer[0] as usize;
        for room in 0..=stored + 2 {
            let observed = compare(&Case { room, ..full.clone() });
            let kept = room.min(stored);
            assert_eq!((observed.code, observed.answer[0]), (0, kept as u64), "{}", full.line());
            assert_eq!(observed.lengths[..kept], whole.lengths[..kept], "{}", full.line());
            assert_eq!(observed.lengths[kept..], numbers_before(room)[kept..], "{}", full.line());
            let expected = if room < stored { 3 } else { whole.answer[1] };
            assert_eq!(observed.answer[1], expected, "the ending with {room} entries\n{}", full.line());
        }
    }
}

#[test]
fn numbers_of_each_call() {
    for call in [Call::Read, Call::Write, Call::Find, Call::Setting, Call::Spool, Call::Response] {
        every_answer_length(call);
    }
}

#[test]
fn numbers_of_the_gateway() {
    every_answer_length(Call::Gateway);
}

/// The header says that 64 KiB of stack are enough. The mount search is deepest where a path of 64 slashes has no mount. A mount's limit is
/// read in both. The socket reader gets a block of 128 headers.
#[test]
fn a_stack_of_64_kib() {
    let lines: String = (0..63).map(|at| format!("Field-{at}: {}\r\n", "x".repeat(40))).collect();
    let http = format!("GET {} HTTP/1.0\r\n{lines}\r\n", "/x".repeat(64)).into_bytes();
    let mut inputs = recorded::blocks("10.0.0.9", "/x", "pool;0001048576");
    inputs.push(http);
    let fits = Case::new(Call::Gateway, inputs, 20_000);
    let mut deepest = fits.clone();
    deepest.inputs[2] = generate::block(&[generate::pair("/y", b"pool;0001048576")]);
    let on_small_stack = |case: Case| {
        let thread = thread::Builder::new().stack_size(64 * 1024).spawn(move || observe(&Archive, &case).code);
        thread.expect("a thread").join().expect("the call returns")
    };
    assert_eq!(on_small_stack(fits), 0);
    assert_eq!(on_small_stack(deepest), 19);
    let mut pairs = vec![generate::pair("CONTENT_LENGTH", b"0"), generate::pair("SCGI", b"1")];
    pairs.extend((2..128).map(|at| generate::pair(&format!("HEADER_{at}"), b"")));
    let block = generate::block(&pairs);
    let request = [format!("{}:", block.len()).as_bytes(), &block, b","].concat();
    assert_eq!(on_small_stack(Case::new(Call::Feed, vec![request], 16_384)), 0);
}
