//! The ring buffer.

use super::decided;
use super::lent::{plain, with_room, with_source, Library, Parts, Reply};
use crate::decide::{words, Decision};
use crate::upstream::ring_buf::Call;

extern "C" {
    fn wq_ring_buf_init(head: *mut u32, buf: *const u8, len: u64, capacity: u32) -> i32;
    fn wq_ring_buf_put(head: *mut u32, buf: *mut u8, len: u64, value: u8) -> i32;
    fn wq_ring_buf_get(head: *mut u32, buf: *const u8, len: u64, value: *mut u8) -> i32;
    fn wq_ring_buf_put_n(head: *mut u32, buf: *mut u8, len: u64, src: *const u8, src_len: u64) -> i64;
    fn wq_ring_buf_get_n(head: *mut u32, buf: *const u8, len: u64, out: *mut u8, out_len: u64) -> i64;
    fn wq_ring_buf_peek_at(head: *const u32, buf: *const u8, len: u64, idx: u32, value: *mut u8) -> i32;
    fn wq_ring_buf_reset(head: *mut u32, buf: *const u8, len: u64) -> i32;
    fn wq_ring_buf_size_get(head: *const u32, buf: *const u8, len: u64) -> i64;
    fn wq_ring_buf_space_get(head: *const u32, buf: *const u8, len: u64) -> i64;
    fn wq_ring_buf_capacity_get(head: *const u32, buf: *const u8, len: u64) -> i64;
    fn wq_ring_buf_is_empty(head: *const u32, buf: *const u8, len: u64) -> i32;
    fn wq_ring_buf_is_full(head: *const u32, buf: *const u8, len: u64) -> i32;
    fn wq_ring_buf_head_get(head: *const u32, buf: *const u8, len: u64) -> i64;
    fn wq_ring_buf_tail_get(head: *const u32, buf: *const u8, len: u64) -> i64;
    fn wq_ring_buf_claim_decide(head: u32, base: u32, buf_size: u32, requested: u32, offset: *mut u32) -> u32;
    fn wq_ring_buf_finish_decide(head: u32, tail: u32, size: u32) -> bool;
    fn wq_ring_buf_space_get_decide(put_head: u32, get_tail: u32, buf_size: u32) -> u32;
    fn wq_ring_buf_size_get_decide(put_tail: u32, get_head: u32) -> u32;
}

pub struct RingBuf;

impl Library<3> for RingBuf {
    type Cell = u8;
    type Call = Call;

    fn brings(call: Call) -> u64 {
        match call {
            Call::Put => 1,
            Call::PutN(len) => len,
            _ => 0,
        }
    }

    fn ask(Parts { head, cells, len }: Parts<u8>, call: Call, brought: &[u8]) -> Result<Reply<u8>, String> {
        unsafe {
            match call {
                Call::Init(capacity) => plain(wq_ring_buf_init(head, cells, len, capacity)),
                Call::Put => plain(wq_ring_buf_put(head, cells, len, brought[0])),
                Call::Get => with_room(1, |_| 1, |value, _| wq_ring_buf_get(head, cells, len, value).into()),
                Call::PutN(count) => {
                    with_source(brought, count, |src, src_len| wq_ring_buf_put_n(head, cells, len, src, src_len))
                }
                Call::GetN(room) => {
                    let written = |code| code as usize;
                    with_room(room, written, |out, out_len| wq_ring_buf_get_n(head, cells, len, out, out_len))
                }
                Call::PeekAt(idx) => {
                    with_room(1, |_| 1, |value, _| wq_ring_buf_peek_at(head, cells, len, idx, value).into())
                }
                Call::Reset => plain(wq_ring_buf_reset(head, cells, len)),
            }
        }
    }

    fn numbers(Parts { head, cells, len }: Parts<u8>) -> Vec<i64> {
        unsafe {
            vec![
                wq_ring_buf_capacity_get(head, cells, len),
                wq_ring_buf_head_get(head, cells, len),
                wq_ring_buf_tail_get(head, cells, len),
                wq_ring_buf_size_get(head, cells, len),
                wq_ring_buf_space_get(head, cells, len),
                wq_ring_buf_is_empty(head, cells, len).into(),
                wq_ring_buf_is_full(head, cells, len).into(),
            ]
        }
    }
}

pub fn claim(input: &[u32]) -> Result<Decision, String> {
    let [head, base, buf_size, requested] = words(input);
    decided(|[offset]| unsafe { wq_ring_buf_claim_decide(head, base, buf_size, requested, offset) }.into())
}

pub fn finish(input: &[u32]) -> Result<Decision, String> {
    let [head, tail, size] = words(input);
    decided(|[]| unsafe { wq_ring_buf_finish_decide(head, tail, size) }.into())
}

pub fn space_get(input: &[u32]) -> Result<Decision, String> {
    let [put_head, get_tail, buf_size] = words(input);
    decided(|[]| unsafe { wq_ring_buf_space_get_decide(put_head, get_tail, buf_size) }.into())
}

pub fn size_get(input: &[u32]) -> Result<Decision, String> {
    let [put_tail, get_head] = words(input);
    decided(|[]| unsafe { wq_ring_buf_size_get_decide(put_tail, get_head) }.into())
}
