//! The SCGI reader over a socket: it takes a request in runs that are cut anywhere, and keeps what it needs from one to the next.
use super::scgi::check_block;
use crate::refusal::*;
use crate::socket::{stage, Fed, Socket, NEW};

/// Takes the next run. `block` holds what the run before left in it. Called by C's convention, as the archive is: the structs by value cost
/// what they cost there.
#[inline(never)]
#[allow(improper_ctypes_definitions)]
pub extern "C" fn feed(state: Socket, run: &[u8], block: &mut [u8]) -> Fed {
    let Some(block) = block.get_mut(..MAX_BLOCK) else {
        return unfinished(state, ROOM.into(), 0, 0);
    };
    let mut state = within_limits(state);
    if state.stage >= stage::WHOLE {
        return answer(state, 0, run.len());
    }
    match take(&mut state, run, block) {
        Ok((body, after)) => answer(state, body, after),
        Err(number) => answer(Socket { stage: stage::REFUSED, refusal: number.into(), ..NEW }, 0, 0),
    }
}

/// A state that no call gave: a new one in place of a stage or a refusal that is none, and numbers that are within their limits.
fn within_limits(state: Socket) -> Socket {
    match state.stage {
        stage::REFUSED if (LENGTH.into()..=SCGI.into()).contains(&state.refusal) => {
            Socket { stage: stage::REFUSED, refusal: state.refusal, ..NEW }
        }
        stage::REFUSED.. => NEW,
        stage => {
            let (len, body) = (state.len.min(MAX_BLOCK), state.body.min(MAX_BODY));
            let (digits, stored, seen) = (state.digits.min(len + 1), state.stored.min(len), state.seen.min(body));
            Socket { stage, refusal: 0, digits, len, stored, body, seen }
        }
    }
}

/// The answer of a state, with the counts of a run.
fn answer(state: Socket, body: usize, after: usize) -> Fed {
    match state.stage {
        stage::WHOLE => {
            let used = state.digits + 1 + state.len + 1 + state.body;
            Fed { block_len: state.len, body_len: state.body, used, ..unfinished(state, 0, body, after) }
        }
        stage::REFUSED => unfinished(state, state.refusal as u64, body, after),
        _ => unfinished(state, CUT.into(), body, after),
    }
}

/// An answer without lengths.
fn unfinished(state: Socket, refusal: u64, body: usize, after: usize) -> Fed {
    Fed { state, refusal, body, after, block_len: 0, body_len: 0, used: 0 }
}

/// Takes the run stage by stage, as far as it goes; gives how many bytes are the body's and how many come after the end.
fn take(state: &mut Socket, run: &[u8], block: &mut [u8]) -> Result<(usize, usize), Refusal> {
    let mut rest = run;
    if state.stage == stage::LENGTH {
        rest = take_length(state, rest)?;
    }
    if state.stage == stage::BLOCK {
        rest = take_block(state, rest, block)?;
    }
    if state.stage != stage::BODY {
        return Ok((0, 0));
    }
    let body = rest.len().min(state.body - state.seen);
    state.seen += body;
    if state.seen == state.body {
        state.stage = stage::WHOLE;
    }
    Ok((body, rest.len() - body))
}

/// Takes digits up to their colon; gives the bytes after it.
fn take_length<'r>(state: &mut Socket, run: &'r [u8]) -> Result<&'r [u8], Refusal> {
    *state = Socket { digits: state.digits, len: state.len, ..NEW };
    for (at, &byte) in run.iter().enumerate() {
        match byte {
            b':' if state.digits > 0 => {
                state.stage = stage::BLOCK;
                return Ok(&run[at + 1..]);
            }
            b'0'..=b'9' if state.digits == 0 || state.len > 0 => {
                state.digits += 1;
                state.len = state.len * 10 + usize::from(byte - b'0');
            }
            _ => return Err(LENGTH),
        }
        if state.len > MAX_BLOCK {
            return Err(BLOCK_LONG);
        }
    }
    Ok(&[])
}

/// Takes bytes of the block to their place, then the comma, at which the whole block is judged; gives the bytes after it.
fn take_block<'r>(state: &mut Socket, run: &'r [u8], block: &mut [u8]) -> Result<&'r [u8], Refusal> {
    let (part, rest) = run.split_at(run.len().min(state.len - state.stored));
    block[state.stored..state.stored + part.len()].copy_from_slice(part);
    state.stored += part.len();
    let Some((comma, rest)) = rest.split_first() else {
        return Ok(&[]);
    };
    if *comma != b',' {
        return Err(COMMA);
    }
    *state = Socket { stage: stage::BODY, body: check_block(&block[..state.len])?, seen: 0, ..*state };
    Ok(rest)
}
