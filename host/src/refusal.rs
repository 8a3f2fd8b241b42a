//! The refusal numbers and the limits of the rules, by name.

pub type Refusal = u8;

pub const CUT: Refusal = 1;
pub const LENGTH: Refusal = 2;
pub const BLOCK_LONG: Refusal = 3;
pub const COMMA: Refusal = 4;
pub const BLOCK: Refusal = 5;
pub const HEADERS: Refusal = 6;
pub const TWICE: Refusal = 7;
pub const FIRST: Refusal = 8;
pub const BODY_LONG: Refusal = 9;
pub const SCGI: Refusal = 10;
pub const HEAD_LONG: Refusal = 11;
pub const REQUEST_LINE: Refusal = 12;
pub const VERSION: Refusal = 13;
pub const TARGET: Refusal = 14;
pub const FIELD: Refusal = 15;
pub const HOST: Refusal = 16;
pub const CONTENT: Refusal = 17;
pub const TRANSFER_ENCODING: Refusal = 18;
pub const MOUNT: Refusal = 19;
/// What is lent to the gateway is wrong, or the response reader is told an edition that there is not.
pub const LENT: Refusal = 20;
pub const ROOM: Refusal = 21;
// 22, for variables above 16,384 bytes, is not given any more: no request comes near.
pub const BODY_LENGTH: Refusal = 23;
pub const RESPONSE: Refusal = 24;
pub const CONTRADICTION: Refusal = 25;

/// Bytes of a block of headers.
pub const MAX_BLOCK: usize = 16_384;
/// Headers of a block.
pub const MAX_HEADERS: usize = 128;
/// Bytes of a body. A mount's limit is at most this, and without a limit it is this.
pub const MAX_BODY: usize = 1_048_576;
/// Digits of a decimal number that is read, the netstring length aside.
pub const MAX_DIGITS: usize = 10;
/// Bytes of the head of an HTTP request or of a script response, its empty line included.
pub const MAX_HEAD: usize = 8_192;
/// Bytes of a target.
pub const MAX_TARGET: usize = 4_096;
/// Slashes of a path.
pub const MAX_SLASHES: usize = 64;
/// Bytes of a method.
pub const MAX_METHOD: usize = 32;
/// Field lines of a head.
pub const MAX_FIELDS: usize = 64;
/// Bytes of the connection facts, and of the site settings.
pub const MAX_FACTS: usize = 1_024;
/// Bytes of the mounts.
pub const MAX_MOUNTS: usize = 4_096;
/// Entries of the mounts.
pub const MAX_MOUNT_COUNT: usize = 32;
