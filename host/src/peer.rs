//! The C peer of the benchmarks, bench/peer.c: the gateway step by picohttpparser, for good requests only.
use crate::calls::{Blocks, Calls};
use crate::socket::{Fed, Socket};

extern "C" {
    #[rustfmt::skip]
    fn peer_gateway(
        facts: *const u8,
        facts_len: usize,
        site: *const u8,
        site_len: usize,
        mounts: *const u8,
        mounts_len: usize,
        http: *const u8,
        http_len: usize,
        out: *mut u8,
        out_len: usize,
        answer: *mut u64,
        answer_len: usize,
    ) -> u64;
}

/// It has the gateway step alone.
pub struct Peer;

impl Calls for Peer {
    #[rustfmt::skip]
    fn gateway(&self, blocks: Blocks, http: &[u8], out: &mut [u8], answer: &mut [u64]) -> u64 {
        let Blocks { facts, site, mounts } = blocks;
        // Safe: slices are valid for their lengths, and the peer refuses an output without room for the request and 17,000 bytes.
        unsafe {
            peer_gateway(
                facts.as_ptr(), facts.len(), site.as_ptr(), site.len(), mounts.as_ptr(), mounts.len(),
                http.as_ptr(), http.len(), out.as_mut_ptr(), out.len(), answer.as_mut_ptr(), answer.len(),
            )
        }
    }

    fn scgi_read(&self, _: &[u8], _: &mut [u64]) -> u64 {
        unimplemented!()
    }
    fn scgi_write(&self, _: &[u8], _: &[u8], _: &mut [u8], _: &mut [u64]) -> u64 {
        unimplemented!()
    }
    fn scgi_find(&self, _: &[u8], _: &[u8], _: &mut [u64]) -> u64 {
        unimplemented!()
    }
    fn find_setting(&self, _: &[u8], _: &[u8], _: &[u8], _: &mut [u64]) -> u64 {
        unimplemented!()
    }
    fn read_spool(&self, _: &[u8], _: &mut [u64], _: &mut [u64]) -> u64 {
        unimplemented!()
    }
    fn read_response(&self, _: u64, _: &[u8], _: &[u8], _: &mut [u64]) -> u64 {
        unimplemented!()
    }
    fn socket_new(&self) -> Socket {
        unimplemented!()
    }
    fn socket_feed(&self, _: Socket, _: &[u8], _: &mut [u8]) -> Fed {
        unimplemented!()
    }
}
