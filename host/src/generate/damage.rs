//! Damage: bytes dropped, doubled, flipped, put in, spliced, cut.
use crate::random::Random;

/// Bytes that mean something in one of the formats.
const MARKS: &[u8] = b"\0\r\n\t :,;%?/._-0123456789\x7f\xff\x80&#\\\"<HSaz";

/// Damages the bytes in one place or a few.
pub fn damage(random: &mut Random, bytes: &mut Vec<u8>) {
    for _ in 0..random.pick(&[1, 1, 1, 2, 3, 6]) {
        damage_once(random, bytes);
    }
}

fn damage_once(random: &mut Random, bytes: &mut Vec<u8>) {
    let at = random.below(bytes.len());
    let run = at..(at + random.pick(&[1, 1, 2, 5, 20])).min(bytes.len());
    match random.below(8) {
        0 => drop(bytes.drain(run)),
        1 => {
            let doubled = bytes[run.clone()].to_vec();
            bytes.splice(at..at, doubled);
        }
        2 | 3 => flip(random, bytes, at),
        4 => bytes.insert(at, random.pick(MARKS)),
        5 => set(bytes, at, random.pick(MARKS)),
        6 => {
            let moved = bytes[run].to_vec();
            let to = random.below(bytes.len() + 1);
            bytes.splice(to..to, moved);
        }
        _ => bytes.truncate(at),
    }
}

fn flip(random: &mut Random, bytes: &mut [u8], at: usize) {
    if let Some(byte) = bytes.get_mut(at) {
        *byte ^= 1 << random.below(8);
    }
}

fn set(bytes: &mut [u8], at: usize, mark: u8) {
    if let Some(byte) = bytes.get_mut(at) {
        *byte = mark;
    }
}
