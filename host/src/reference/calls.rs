//! The calls as the C header has them, over the independent implementation.
use super::{find, forward, read, response, setting, socket, spool, write};
use crate::answers::{Forwarded, SpoolEnd, Written};
use crate::calls::{Blocks, Calls};
use crate::refusal::{Refusal, ROOM};
use crate::socket::{Fed, Socket, NEW};

/// The calls of the independent implementation.
pub struct Reference;

/// Stores the numbers of an answer; 21 where the list is too short, last of all refusals.
fn store<const N: usize>(result: Result<[u64; N], Refusal>, answer: &mut [u64]) -> u64 {
    match (result, answer.get_mut(..N)) {
        (Err(number), _) => u64::from(number),
        (Ok(_), None) => u64::from(ROOM),
        (Ok(numbers), Some(place)) => {
            place.copy_from_slice(&numbers);
            0
        }
    }
}

/// The output, or no room at all where the answer is too short: a request has a byte or more, so that is 21 after every other refusal.
fn room_for<'o>(out: &'o mut [u8], answer: &[u64], count: usize) -> &'o mut [u8] {
    if answer.len() < count {
        &mut []
    } else {
        out
    }
}

impl Calls for Reference {
    fn scgi_read(&self, bytes: &[u8], answer: &mut [u64]) -> u64 {
        store(read(bytes).map(|places| places.numbers()), answer)
    }

    fn scgi_write(&self, block: &[u8], body: &[u8], out: &mut [u8], answer: &mut [u64]) -> u64 {
        let out = room_for(out, answer, Written::COUNT);
        store(write(block, body, out).map(|written| [written as u64]), answer)
    }

    fn scgi_find(&self, block: &[u8], name: &[u8], answer: &mut [u64]) -> u64 {
        store(find(block, name).map(|found| found.numbers()), answer)
    }

    fn find_setting(&self, facts: &[u8], site: &[u8], name: &[u8], answer: &mut [u64]) -> u64 {
        store(setting(facts, site, name).map(|found| found.numbers()), answer)
    }

    fn read_spool(&self, bytes: &[u8], lengths: &mut [u64], answer: &mut [u64]) -> u64 {
        if answer.len() < SpoolEnd::COUNT {
            return u64::from(ROOM);
        }
        store(Ok(spool(bytes, lengths).numbers()), answer)
    }

    fn gateway(&self, blocks: Blocks, http: &[u8], out: &mut [u8], answer: &mut [u64]) -> u64 {
        let out = room_for(out, answer, Forwarded::COUNT);
        store(forward(blocks, http, out).map(|forwarded| forwarded.numbers()), answer)
    }

    fn read_response(&self, edition: u64, method: &[u8], script: &[u8], answer: &mut [u64]) -> u64 {
        store(response(edition, method, script).map(|action| action.numbers()), answer)
    }

    fn socket_new(&self) -> Socket {
        NEW
    }

    fn socket_feed(&self, state: Socket, run: &[u8], block: &mut [u8]) -> Fed {
        socket::feed(state, run, block)
    }
}
