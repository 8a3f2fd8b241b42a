//! Requests cut into runs for the socket reader, and states that no call gave.
use super::scgi;
use crate::case::{Call, Case};
use crate::random::Random;
use crate::refusal::{MAX_BLOCK, MAX_BODY};
use crate::socket::{stage, Socket};
use std::mem;

/// The bytes in runs, cut at these places in their order; a place that stands there twice makes a run of no bytes.
pub fn runs<'b>(bytes: &'b [u8], cuts: &[usize]) -> Vec<&'b [u8]> {
    let mut start = 0;
    let ends = cuts.iter().copied().chain([bytes.len()]);
    ends.map(|end| &bytes[mem::replace(&mut start, end)..end]).collect()
}

/// Places to cut so many bytes at: for short runs or for long ones, of no bytes too. Many bytes are not cut into short runs.
pub fn cuts(random: &mut Random, len: usize) -> Vec<usize> {
    let most = random.pick(&[1, 3, 40, 40, 40, 5_000]).max(len / 100);
    let mut cuts = vec![random.below(most + 1)];
    while let Some(&last) = cuts.last().filter(|&&last| last <= len) {
        cuts.push(last + random.below(most + 1));
    }
    cuts.pop();
    cuts
}

/// A length for the buffer, which is enough.
pub fn room(random: &mut Random) -> usize {
    MAX_BLOCK + random.pick(&[0, 0, 0, 1, 100, 4_000])
}

/// A length for the buffer that is too short.
pub fn short_room(random: &mut Random) -> usize {
    let any = random.below(MAX_BLOCK);
    random.pick(&[0, 1, any, MAX_BLOCK - 1, MAX_BLOCK - 1])
}

/// Input of the reader in runs, and a buffer that is long enough.
pub fn feed_case(random: &mut Random) -> Case {
    let bytes = scgi::read_input(random);
    let cuts = cuts(random, bytes.len());
    let runs = runs(&bytes, &cuts).into_iter().map(<[u8]>::to_vec).collect();
    Case::new(Call::Feed, runs, room(random))
}

/// A state with other numbers in some places, which mostly did not come from a call.
pub fn disturbed(random: &mut Random, state: Socket) -> Socket {
    let mut numbers = state.numbers();
    for _ in 0..random.pick(&[0, 1, 1, 2, 3, 12]) {
        numbers[random.below(7)] = any_number(random);
    }
    if random.chance(30) {
        numbers[0] = random.below(stage::REFUSED + 2);
    }
    Socket::of(numbers)
}

/// A small number, one near to a limit or to the end of all numbers, or any other.
fn any_number(random: &mut Random) -> usize {
    let limit = random.pick(&[10, 21, 256, MAX_BLOCK, MAX_BODY, 1 << 32, 0]);
    match random.below(4) {
        0 => random.small(),
        1 => random.number() as usize,
        _ => limit.wrapping_add(random.below(5)).wrapping_sub(2),
    }
}
