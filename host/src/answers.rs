//! The numbers that each call stores in its lent list, in their order; and names for those of actions, endings and editions.

/// A struct of numbers that is a call's answer: the fields stand in the order of the list.
macro_rules! answer {
    ($(#[$doc:meta])* $name:ident, $count:literal: $($field:ident),+) => {
        $(#[$doc])*
        #[derive(Clone, Copy, Debug, PartialEq, Eq)]
        pub struct $name {
            $(pub $field: u64),+
        }

        impl $name {
            pub const COUNT: usize = $count;

            pub fn numbers(&self) -> [u64; $count] {
                [$(self.$field),+]
            }

            pub fn of([$($field),+]: [u64; $count]) -> Self {
                $name { $($field),+ }
            }
        }
    };
}

answer!(
    /// Where a request's block and body lie, and how many bytes the request has.
    Places, 5: block_start, block_len, body_start, body_len, used
);
answer!(
    /// How many bytes were written.
    Written, 1: bytes
);
answer!(
    /// A value in a block: `there` is 1, or 0 and the part is empty.
    Found, 3: there, start, len
);
answer!(
    /// A value in one of two blocks: `origin` is 1 for the connection facts, 2 for the site settings, 0 where the name is in neither.
    Setting, 3: origin, start, len
);
answer!(
    /// How many lengths were stored, how the spool ends, and the refusal's number or 0.
    SpoolEnd, 3: stored, ending, number
);
answer!(
    /// What was written, the pool's place in the mounts block, and the bytes used of the HTTP input.
    Forwarded, 4: written, pool_start, pool_len, used
);
answer!(
    /// The server's action for a script's output.
    Action, 6: action, status, location_start, location_len, body_start, body_len
);

/// Editions, which the response reader is told: RFC 3875, and the draft of 1996.
pub const RFC_3875: u64 = 0;
pub const DRAFT_1996: u64 = 1;

/// Endings of a spool.
pub const WHOLE: u64 = 0;
pub const CUT: u64 = 1;
pub const REFUSED: u64 = 2;
pub const FULL: u64 = 3;

/// Actions for a script's output.
pub const SERVE: u64 = 1;
pub const REDIRECT: u64 = 2;
pub const REDIRECT_WITH_DOCUMENT: u64 = 3;
pub const DOCUMENT: u64 = 4;
