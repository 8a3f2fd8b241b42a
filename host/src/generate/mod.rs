//! Inputs for each call: good ones from the grammars, ones with a wanted fault, lengths around each limit, and damage to all of them.
mod damage;
mod digits;
pub mod draft;
pub mod http;
pub mod lent;
pub mod related;
pub mod response;
pub mod scgi;
pub mod socket;
mod spoil;

use crate::case::{Call, Case};
use crate::random::Random;

/// Bytes that names and values are made of.
pub const LETTERS: &[u8] = b"abcdefghijklmnopqrstuvwxyzABCDEFGHIJKLMNOPQRSTUVWXYZ";

/// A name and a value.
pub type Pair = (Vec<u8>, Vec<u8>);

/// The block of these headers.
pub fn block(pairs: &[Pair]) -> Vec<u8> {
    let mut bytes = Vec::new();
    for (name, value) in pairs {
        bytes.extend_from_slice(name);
        bytes.push(0);
        bytes.extend_from_slice(value);
        bytes.push(0);
    }
    bytes
}

pub fn pair(name: &str, value: &[u8]) -> Pair {
    (name.as_bytes().to_vec(), value.to_vec())
}

/// A case of the call. Its list of numbers is now and then too short or too long; the socket reader is lent none.
pub fn case(random: &mut Random, call: Call) -> Case {
    let mut case = match call {
        Call::Read => Case::new(call, vec![scgi::read_input(random)], 0),
        Call::Write => scgi::write_case(random),
        Call::Find => scgi::find_case(random),
        Call::Setting => scgi::setting_case(random),
        Call::Spool => scgi::spool_case(random),
        Call::Gateway => http::gateway_case(random),
        Call::Response => response::response_case(random),
        Call::Feed => return socket::feed_case(random),
    };
    if random.chance(4) {
        case.answer_len = random.below(call.numbers() + 3);
    }
    case
}

/// A length for the output of a call that writes `exact` bytes: mostly enough, often only just, sometimes too short.
pub fn room(random: &mut Random, exact: usize) -> usize {
    match random.below(10) {
        0 => random.below(exact + 1),
        1..=3 => random.around(exact),
        4..=6 => exact,
        _ => exact + random.below(200),
    }
}
