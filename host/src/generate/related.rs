//! Requests that are near to another one: with the same meaning, or with one that differs in a little thing.
use super::draft::Draft;
use crate::meaning::{separator, split, trim};
use crate::random::Random;

/// A request that differs from the draft in one place or two.
pub fn related(random: &mut Random, draft: &Draft) -> Draft {
    let mut other = draft.clone();
    for _ in 0..random.pick(&[1, 1, 2]) {
        if random.chance(70) {
            change_fields(random, &mut other);
        } else {
            change_rest(random, &mut other);
        }
    }
    other
}

fn change_fields(random: &mut Random, draft: &mut Draft) {
    if draft.fields.is_empty() {
        return draft.fields.push(b"X-New: 1".to_vec());
    }
    let at = random.below(draft.fields.len());
    let field = draft.fields[at].clone();
    let (name, value) = split(&field, b":");
    match random.below(10) {
        0 => draft.fields[at] = [&name.to_ascii_uppercase(), &b":"[..], value].concat(),
        1 => draft.fields[at] = [name, b": \t", value, b" "].concat(),
        2..=4 => join_or_part(draft, at, name, value),
        5 => {
            let moved = draft.fields.remove(at);
            let to = random.below(draft.fields.len() + 1);
            draft.fields.insert(to, moved);
        }
        6 => draft.fields.push(random.pick(&["Authorization: x", "proxy: y", "CONNECTION: close", "Keep-Alive: 5"]).into()),
        7 => draft.fields[at].push(random.pick(b"x, \t")),
        8 => draft.fields.push(field.clone()),
        _ => drop(draft.fields.remove(at)),
    }
}

/// Joins the next line of the same name to a value; where there is none, parts the value at its first separator, or adds a line.
fn join_or_part(draft: &mut Draft, at: usize, name: &[u8], value: &[u8]) {
    let between = separator(&name.to_ascii_lowercase());
    let next = (at + 1..draft.fields.len()).find(|&later| split(&draft.fields[later], b":").0.eq_ignore_ascii_case(name));
    if let Some(next) = next {
        let later = draft.fields.remove(next);
        draft.fields[at] = [name, b":", trim(value), between, trim(split(&later, b":").1)].concat();
    } else if value.windows(2).any(|two| two == between) {
        let (first, second) = split(value, between);
        draft.fields[at] = [name, b":", first].concat();
        draft.fields.insert(at + 1, [name, b":", second].concat());
    } else {
        draft.fields.insert(at + 1, [name, b": two"].concat());
    }
}

fn change_rest(random: &mut Random, draft: &mut Draft) {
    match random.below(6) {
        0 => draft.method = draft.method.to_ascii_lowercase(),
        1 => draft.target.push(random.pick(b"x/?")),
        2 => draft.version = random.pick(&["HTTP/1.0", "HTTP/1.1"]).into(),
        3 => {
            if let Some(byte) = draft.body.first_mut() {
                *byte ^= 1;
            }
        }
        4 => draft.fields.push(b"Content-Type:".to_vec()),
        _ => {
            for field in draft.fields.iter_mut().filter(|field| field.starts_with(b"Content-Length: ")) {
                field.insert(b"Content-Length: ".len(), b'0');
            }
        }
    }
}
