//! Inputs for the gateway.
use super::damage::damage;
use super::draft::good;
use super::lent::{self, Mount};
use super::room;
use super::spoil::{at_limit, spoil};
use crate::calls::{Blocks, Calls};
use crate::case::{Call, Case};
use crate::random::Random;
use crate::reference::Reference;
use crate::refusal::*;

/// Bytes of a request to these mounts: good, at a limit, with one or two faults, damaged, cut, or with more bytes behind.
pub fn http_input(random: &mut Random, mounts: &[Mount]) -> Vec<u8> {
    let mut draft = good(random, mounts);
    match random.below(20) {
        0..=8 => {
            let faults = random.pick(&[1, 1, 1, 2, 3]);
            for _ in 0..faults {
                let number = BODY_LONG + random.pick(&[0, 2, 3, 4, 5, 6, 7, 8, 9, 10]);
                spoil(random, &mut draft, number);
            }
        }
        9..=10 => at_limit(random, &mut draft),
        _ => {}
    }
    let mut bytes = draft.bytes();
    if bytes.len() >= MAX_HEAD && random.chance(30) {
        bytes.truncate(random.around(MAX_HEAD));
    }
    match random.below(20) {
        0 => bytes.truncate(random.below(bytes.len())),
        1..=3 if bytes.len() < 10_000 => damage(random, &mut bytes),
        4..=5 => bytes.extend_from_slice(b"GET / HTTP/1.1\r\n"),
        _ => {}
    }
    bytes
}

/// A case of the gateway, with a room around the exact length where the request is accepted.
pub fn gateway_case(random: &mut Random) -> Case {
    let good = lent::good(random);
    let mut inputs = match random.below(20) {
        0 => lent::breach(random, good.clone()),
        1 => lent::at_limit(random, good.clone()).blocks(),
        _ => good.blocks(),
    };
    inputs.push(http_input(random, &good.mounts));
    let exact = written(&inputs);
    let room = room(random, exact);
    Case::new(Call::Gateway, inputs, room)
}

/// How many bytes the reference writes for these inputs, 0 where it refuses them.
fn written(inputs: &[Vec<u8>]) -> usize {
    let blocks = Blocks { facts: &inputs[0], site: &inputs[1], mounts: &inputs[2] };
    let mut out = vec![0; MAX_BLOCK + 10 + inputs[3].len()];
    Reference.forward(blocks, &inputs[3], &mut out).map_or(0, |forwarded| forwarded.written as usize)
}
