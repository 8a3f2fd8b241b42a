//! The calls with Rust's types. `Calls` has each call as the C header has it and, over that, with its answer as a struct; `Archive` is
//! the archive's side of it, `reference::Reference` the independent implementation's.
use crate::answers::*;
use crate::ffi;
use crate::refusal::Refusal;
use crate::socket::{Fed, Socket};

/// The three blocks that the gateway is lent.
#[derive(Clone, Copy)]
pub struct Blocks<'a> {
    pub facts: &'a [u8],
    pub site: &'a [u8],
    pub mounts: &'a [u8],
}

/// Every call but those of the socket reader gives 0, or the refusal's number, and stores its numbers in `answer`.
pub trait Calls {
    fn scgi_read(&self, bytes: &[u8], answer: &mut [u64]) -> u64;
    fn scgi_write(&self, block: &[u8], body: &[u8], out: &mut [u8], answer: &mut [u64]) -> u64;
    fn scgi_find(&self, block: &[u8], name: &[u8], answer: &mut [u64]) -> u64;
    fn find_setting(&self, facts: &[u8], site: &[u8], name: &[u8], answer: &mut [u64]) -> u64;
    fn read_spool(&self, bytes: &[u8], lengths: &mut [u64], answer: &mut [u64]) -> u64;
    fn gateway(&self, blocks: Blocks, http: &[u8], out: &mut [u8], answer: &mut [u64]) -> u64;
    fn read_response(&self, edition: u64, method: &[u8], script: &[u8], answer: &mut [u64]) -> u64;
    fn socket_new(&self) -> Socket;
    fn socket_feed(&self, state: Socket, run: &[u8], block: &mut [u8]) -> Fed;

    fn read(&self, bytes: &[u8]) -> Result<Places, Refusal> {
        answered(|answer| self.scgi_read(bytes, answer)).map(Places::of)
    }

    fn write(&self, block: &[u8], body: &[u8], out: &mut [u8]) -> Result<Written, Refusal> {
        answered(|answer| self.scgi_write(block, body, out, answer)).map(Written::of)
    }

    fn find(&self, block: &[u8], name: &[u8]) -> Result<Found, Refusal> {
        answered(|answer| self.scgi_find(block, name, answer)).map(Found::of)
    }

    fn setting(&self, facts: &[u8], site: &[u8], name: &[u8]) -> Result<Setting, Refusal> {
        answered(|answer| self.find_setting(facts, site, name, answer)).map(Setting::of)
    }

    fn spool(&self, bytes: &[u8], lengths: &mut [u64]) -> Result<SpoolEnd, Refusal> {
        answered(|answer| self.read_spool(bytes, lengths, answer)).map(SpoolEnd::of)
    }

    fn forward(&self, blocks: Blocks, http: &[u8], out: &mut [u8]) -> Result<Forwarded, Refusal> {
        answered(|answer| self.gateway(blocks, http, out, answer)).map(Forwarded::of)
    }

    fn response(&self, edition: u64, method: &[u8], script: &[u8]) -> Result<Action, Refusal> {
        answered(|answer| self.read_response(edition, method, script, answer)).map(Action::of)
    }
}

/// Runs a call with a list of the right length.
fn answered<const N: usize>(call: impl FnOnce(&mut [u64]) -> u64) -> Result<[u64; N], Refusal> {
    let mut answer = [0; N];
    match call(&mut answer) {
        0 => Ok(answer),
        number => Err(number as Refusal),
    }
}

/// The calls of the linked archive.
pub struct Archive;

// Each call below is safe: slices are valid for their lengths, and a `&mut` slice overlaps no other.
impl Calls for Archive {
    fn scgi_read(&self, bytes: &[u8], answer: &mut [u64]) -> u64 {
        unsafe { ffi::oy_scgi_read(bytes.as_ptr(), bytes.len(), answer.as_mut_ptr(), answer.len()) }
    }

    #[rustfmt::skip]
    fn scgi_write(&self, block: &[u8], body: &[u8], out: &mut [u8], answer: &mut [u64]) -> u64 {
        unsafe {
            ffi::oy_scgi_write(
                block.as_ptr(), block.len(), body.as_ptr(), body.len(),
                out.as_mut_ptr(), out.len(), answer.as_mut_ptr(), answer.len(),
            )
        }
    }

    #[rustfmt::skip]
    fn scgi_find(&self, block: &[u8], name: &[u8], answer: &mut [u64]) -> u64 {
        unsafe {
            ffi::oy_scgi_find(
                block.as_ptr(), block.len(), name.as_ptr(), name.len(),
                answer.as_mut_ptr(), answer.len(),
            )
        }
    }

    #[rustfmt::skip]
    fn find_setting(&self, facts: &[u8], site: &[u8], name: &[u8], answer: &mut [u64]) -> u64 {
        unsafe {
            ffi::oy_setting(
                facts.as_ptr(), facts.len(), site.as_ptr(), site.len(),
                name.as_ptr(), name.len(), answer.as_mut_ptr(), answer.len(),
            )
        }
    }

    #[rustfmt::skip]
    fn read_spool(&self, bytes: &[u8], lengths: &mut [u64], answer: &mut [u64]) -> u64 {
        unsafe {
            ffi::oy_spool(
                bytes.as_ptr(), bytes.len(), lengths.as_mut_ptr(), lengths.len(),
                answer.as_mut_ptr(), answer.len(),
            )
        }
    }

    #[rustfmt::skip]
    fn gateway(&self, blocks: Blocks, http: &[u8], out: &mut [u8], answer: &mut [u64]) -> u64 {
        let Blocks { facts, site, mounts } = blocks;
        unsafe {
            ffi::oy_gateway(
                facts.as_ptr(), facts.len(), site.as_ptr(), site.len(), mounts.as_ptr(), mounts.len(),
                http.as_ptr(), http.len(), out.as_mut_ptr(), out.len(), answer.as_mut_ptr(), answer.len(),
            )
        }
    }

    #[rustfmt::skip]
    fn read_response(&self, edition: u64, method: &[u8], script: &[u8], answer: &mut [u64]) -> u64 {
        unsafe {
            ffi::oy_response(
                edition, method.as_ptr(), method.len(), script.as_ptr(), script.len(),
                answer.as_mut_ptr(), answer.len(),
            )
        }
    }

    fn socket_new(&self) -> Socket {
        unsafe { ffi::oy_socket_new() }
    }

    fn socket_feed(&self, state: Socket, run: &[u8], block: &mut [u8]) -> Fed {
        unsafe { ffi::oy_socket_feed(state, run.as_ptr(), run.len(), block.as_mut_ptr(), block.len()) }
    }
}
