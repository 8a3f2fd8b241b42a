//! An independent implementation of the rules, written from the rules alone and not from the proved code: the tests hold the archive to
//! it, the benchmarks compare the archive's speed with it.

mod block;
mod bytes;
mod calls;
mod edition;
mod fields;
mod gateway;
mod head;
mod lent;
mod lookup;
mod response;
mod scgi;
mod socket;
mod spool;
mod target;
mod variables;

pub use calls::Reference;
use gateway::forward;
use lookup::{find, setting};
use response::response;
use scgi::{read, write};
use spool::spool;
