//! The archive against the independent implementation, call by call, on many inputs: what is given, what is written, what is left.
use oyinkafubo_host::answers::{CUT, DRAFT_1996, FULL, REFUSED, RFC_3875, WHOLE};
use oyinkafubo_host::case::{compare, observe, Call, Case, Observed};
use oyinkafubo_host::counts::Counts;
use oyinkafubo_host::generate::{self, lent};
use oyinkafubo_host::random::Random;
use oyinkafubo_host::reference::Reference;

/// Compares both sides on `count` cases of the call and hands each with its result to `each`.
fn compare_many(call: Call, count: usize, mut each: impl FnMut(Case, &Observed)) {
    let mut random = Random::seeded(call.name());
    for _ in 0..count {
        let case = generate::case(&mut random, call);
        let observed = compare(&case);
        each(case, &observed);
    }
}

/// Compares many cases and holds the numbers seen to those that the call can give.
fn check(call: Call, count: usize, numbers: &[usize]) {
    let mut counts = Counts::new(call.name());
    compare_many(call, count, |_, observed| counts.count(observed.code));
    counts.assert_seen(numbers);
    counts.assert_accepted();
}

#[test]
fn read() {
    check(Call::Read, 200_000, &[1, 2, 3, 4, 5, 6, 7, 8, 9, 10, 21]);
}

#[test]
fn write() {
    check(Call::Write, 150_000, &[3, 5, 6, 7, 8, 9, 10, 21, 23]);
}

#[test]
fn find() {
    check(Call::Find, 100_000, &[5, 21]);
}

#[test]
fn setting() {
    check(Call::Setting, 100_000, &[5, 21]);
}

/// A spool's endings are no refusals of the call: they stand in the answer, with the number of the request that was refused.
#[test]
fn spool() {
    let mut given = Counts::new("spool");
    let mut refused = Counts::new("spool, refused requests");
    let mut endings = [0; 4];
    compare_many(Call::Spool, 100_000, |_, observed| {
        given.count(observed.code);
        if observed.code == 0 {
            endings[observed.answer[1] as usize] += 1;
            refused.count(observed.answer[2]);
        }
    });
    println!("spool: endings {endings:?}");
    given.assert_seen(&[21]);
    refused.assert_seen(&[2, 3, 4, 5, 6, 7, 8, 9, 10]);
    for ending in [WHOLE, CUT, REFUSED, FULL] {
        assert!(endings[ending as usize] > 1000, "ending {ending} is rare");
    }
}

/// 22 is none of them: under the limits of the head, of the target, of the fields and of the blocks the variables fit in a block. The
/// limits of the mounts bring 9 and 20, often, and no other number.
#[test]
fn gateway() {
    let mut given = Counts::new("gateway");
    let mut by_limits = Counts::new("gateway, by the limits of the mounts");
    compare_many(Call::Gateway, 200_000, |mut case, observed| {
        given.count(observed.code);
        case.inputs[2] = lent::without_limits(&case.inputs[2]);
        if observe(&Reference, &case).code != observed.code {
            by_limits.count(observed.code);
        }
    });
    given.assert_seen(&[1, 9, 11, 12, 13, 14, 15, 16, 17, 18, 19, 20, 21]);
    given.assert_accepted();
    by_limits.assert_seen(&[9, 20]);
    assert!(by_limits.seen[9] > 1_000 && by_limits.seen[20] > 1_000, "a limit is rarely broken");
}

/// Every action is seen under both editions; and the method alone decides where the draft gives 25 for what the RFC edition accepts.
#[test]
fn response() {
    let mut counts = Counts::new("response");
    let mut actions = [[0; 5]; 2];
    let mut by_method = 0;
    compare_many(Call::Response, 300_000, |case, observed| {
        counts.count(observed.code);
        if observed.code == 0 {
            actions[case.edition as usize][observed.answer[0] as usize] += 1;
        }
        if case.edition == DRAFT_1996 && observed.code == 25 {
            by_method += usize::from(observe(&Reference, &Case { edition: RFC_3875, ..case }).code == 0);
        }
    });
    println!("response: actions by edition {actions:?}, {by_method} refused for the method alone");
    counts.assert_seen(&[20, 21, 24, 25]);
    counts.assert_accepted();
    assert!(actions.iter().all(|of_edition| of_edition[1..].iter().all(|&seen| seen > 1000)), "an action is rare");
    assert!(by_method > 1_000, "the method alone decides rarely");
}
