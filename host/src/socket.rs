//! The state of a socket reader and what it answers to a run of bytes, as the C header has both.

/// How far the request has come.
pub mod stage {
    pub const LENGTH: usize = 0;
    pub const BLOCK: usize = 1;
    pub const BODY: usize = 2;
    pub const WHOLE: usize = 3;
    pub const REFUSED: usize = 4;
}

/// What a socket reader has taken.
#[repr(C)]
#[derive(Clone, Copy, Debug, PartialEq, Eq)]
pub struct Socket {
    pub stage: usize,
    pub refusal: usize,
    pub digits: usize,
    pub len: usize,
    pub stored: usize,
    pub body: usize,
    pub seen: usize,
}

/// The state before the first byte.
pub const NEW: Socket = Socket { stage: stage::LENGTH, refusal: 0, digits: 0, len: 0, stored: 0, body: 0, seen: 0 };

/// What a run gave: the state for the next one, the answer, how many of its bytes are the body's and how many come after the end.
#[repr(C)]
#[derive(Clone, Copy, Debug, PartialEq, Eq)]
pub struct Fed {
    pub state: Socket,
    pub refusal: u64,
    pub body: usize,
    pub after: usize,
    pub block_len: usize,
    pub body_len: usize,
    pub used: usize,
}

impl Socket {
    pub fn numbers(&self) -> [usize; 7] {
        [self.stage, self.refusal, self.digits, self.len, self.stored, self.body, self.seen]
    }

    pub fn of([stage, refusal, digits, len, stored, body, seen]: [usize; 7]) -> Self {
        Socket { stage, refusal, digits, len, stored, body, seen }
    }
}

impl Fed {
    pub const COUNT: usize = 13;

    /// Every number, those of the state first.
    pub fn numbers(&self) -> impl Iterator<Item = u64> {
        let answer = [self.refusal as usize, self.body, self.after, self.block_len, self.body_len, self.used];
        self.state.numbers().into_iter().chain(answer).map(|number| number as u64)
    }
}
