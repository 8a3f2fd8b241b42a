//! The declarations of include/oyinkafubo.h. Nothing checks them against the header but the tests that run.
use crate::socket::{Fed, Socket};

extern "C" {
    pub fn oy_scgi_read(bytes: *const u8, len: usize, answer: *mut u64, answer_len: usize) -> u64;
    pub fn oy_scgi_write(
        block: *const u8,
        block_len: usize,
        body: *const u8,
        body_len: usize,
        out: *mut u8,
        out_len: usize,
        answer: *mut u64,
        answer_len: usize,
    ) -> u64;
    pub fn oy_scgi_find(block: *const u8, block_len: usize, name: *const u8, name_len: usize, answer: *mut u64, answer_len: usize) -> u64;
    pub fn oy_setting(
        facts: *const u8,
        facts_len: usize,
        site: *const u8,
        site_len: usize,
        name: *const u8,
        name_len: usize,
        answer: *mut u64,
        answer_len: usize,
    ) -> u64;
    pub fn oy_spool(bytes: *const u8, len: usize, lengths: *mut u64, lengths_len: usize, answer: *mut u64, answer_len: usize) -> u64;
    pub fn oy_socket_new() -> Socket;
    pub fn oy_socket_feed(state: Socket, run: *const u8, run_len: usize, block: *mut u8, block_len: usize) -> Fed;
    pub fn oy_gateway(
        facts: *const u8,
        facts_len: usize,
        site: *const u8,
        site_len: usize,
        mounts: *const u8,
        mounts_len: usize,
        http: *const u8,
        http_len: usize,
        out: *mut u8,
        out_len: usize,
        answer: *mut u64,
        answer_len: usize,
    ) -> u64;
    pub fn oy_response(
        edition: u64,
        method: *const u8,
        method_len: usize,
        script: *const u8,
        len: usize,
        answer: *mut u64,
        answer_len: usize,
    ) -> u64;
}
