//! Decimal numbers of at most ten digits, and of more.
use crate::random::Random;
use crate::refusal::{MAX_BODY, MAX_DIGITS};

/// The number in at most ten digits, now and then with zeros in front.
pub fn few(random: &mut Random, number: usize) -> String {
    let width = random.pick(&[1, 1, 1, 1, 1, 2, MAX_DIGITS - 1, MAX_DIGITS]);
    format!("{number:0width$}")
}

/// A number above the largest body, in at most ten digits.
pub fn large(random: &mut Random) -> String {
    let number = random.pick(&[MAX_BODY + 1, MAX_BODY + 2, 9_999_999, 10_485_760, 4_294_967_296, 9_999_999_999]);
    few(random, number)
}

/// More than ten digits: of a small number and of a large one with zeros in front, and of numbers near and above 64 bits.
pub fn many(random: &mut Random) -> String {
    let number = random.pick(&[0, 3, MAX_BODY, MAX_BODY + 1]);
    let width = random.pick(&[MAX_DIGITS + 1, MAX_DIGITS + 1, MAX_DIGITS + 2, 40, 4_001]);
    match random.below(4) {
        0 => random.pick(&["10000000000", "99999999999", "18446744073709551615", "18446744073709551616", "18446744073709551619"]).into(),
        _ => format!("{number:0width$}"),
    }
}
