//! The message queue.

use super::decided;
use super::lent::{plain, with_room, with_source, Library, Parts, Reply};
use crate::decide::{words, Decision};
use crate::upstream::msgq::Call;

extern "C" {
    fn wq_msgq_init(head: *mut u32, buf: *const u8, len: u64, msg_size: u32, max_msgs: u32) -> i32;
    fn wq_msgq_put(head: *mut u32, buf: *mut u8, len: u64, msg: *const u8, msg_len: u64) -> i32;
    fn wq_msgq_put_front(head: *mut u32, buf: *mut u8, len: u64, msg: *const u8, msg_len: u64) -> i32;
    fn wq_msgq_get(head: *mut u32, buf: *const u8, len: u64, out: *mut u8, out_len: u64) -> i32;
    fn wq_msgq_peek_at(head: *const u32, buf: *const u8, len: u64, idx: u32, out: *mut u8, out_len: u64) -> i32;
    fn wq_msgq_purge(head: *mut u32, buf: *const u8, len: u64) -> i64;
    fn wq_msgq_num_free_get(head: *const u32, buf: *const u8, len: u64) -> i64;
    fn wq_msgq_num_used_get(head: *const u32, buf: *const u8, len: u64) -> i64;
    fn wq_msgq_msg_size_get(head: *const u32, buf: *const u8, len: u64) -> i64;
    fn wq_msgq_max_msgs_get(head: *const u32, buf: *const u8, len: u64) -> i64;
    fn wq_msgq_read_idx_get(head: *const u32, buf: *const u8, len: u64) -> i64;
    fn wq_msgq_write_idx_get(head: *const u32, buf: *const u8, len: u64) -> i64;
    fn wq_msgq_is_full(head: *const u32, buf: *const u8, len: u64) -> i32;
    fn wq_msgq_is_empty(head: *const u32, buf: *const u8, len: u64) -> i32;
    fn wq_msgq_put_decide(
        write_idx: u32,
        used: u32,
        max: u32,
        has_waiter: bool,
        is_no_wait: bool,
        new_write_idx: *mut u32,
        new_used: *mut u32,
    ) -> i32;
    fn wq_msgq_get_decide(
        read_idx: u32,
        used: u32,
        max: u32,
        has_waiter: bool,
        is_no_wait: bool,
        new_read_idx: *mut u32,
        new_used: *mut u32,
    ) -> i32;
    fn wq_msgq_put_front_decide(read_idx: u32, used: u32, max: u32, new_read_idx: *mut u32, new_used: *mut u32) -> i32;
    fn wq_msgq_peek_at_decide(read_idx: u32, used: u32, max: u32, idx: u32, slot_idx: *mut u32) -> i32;
}

pub struct MsgQ;

impl Library<4> for MsgQ {
    type Cell = u8;
    type Call = Call;

    fn brings(call: Call) -> u64 {
        match call {
            Call::Put { len } | Call::PutFront { len } => len,
            _ => 0,
        }
    }

    fn ask(Parts { head, cells, len }: Parts<u8>, call: Call, brought: &[u8]) -> Result<Reply<u8>, String> {
        unsafe {
            match call {
                Call::Init { msg_size, max_msgs } => plain(wq_msgq_init(head, cells, len, msg_size, max_msgs)),
                Call::Put { len: count } => {
                    with_source(brought, count, |msg, msg_len| wq_msgq_put(head, cells, len, msg, msg_len).into())
                }
                Call::PutFront { len: count } => {
                    with_source(brought, count, |msg, msg_len| wq_msgq_put_front(head, cells, len, msg, msg_len).into())
                }
                Call::Get { len: room } => with_room(
                    room,
                    |_| room as usize,
                    |out, out_len| wq_msgq_get(head, cells, len, out, out_len).into(),
                ),
                Call::PeekAt { idx, len: room } => with_room(
                    room,
                    |_| room as usize,
                    |out, out_len| wq_msgq_peek_at(head, cells, len, idx, out, out_len).into(),
                ),
                Call::Purge => plain(wq_msgq_purge(head, cells, len)),
            }
        }
    }

    fn numbers(Parts { head, cells, len }: Parts<u8>) -> Vec<i64> {
        unsafe {
            vec![
                wq_msgq_max_msgs_get(head, cells, len),
                wq_msgq_msg_size_get(head, cells, len),
                wq_msgq_read_idx_get(head, cells, len),
                wq_msgq_write_idx_get(head, cells, len),
                wq_msgq_num_used_get(head, cells, len),
                wq_msgq_num_free_get(head, cells, len),
                wq_msgq_is_empty(head, cells, len).into(),
                wq_msgq_is_full(head, cells, len).into(),
            ]
        }
    }
}

pub fn put(input: &[u32]) -> Result<Decision, String> {
    let [idx, used, max, waiter, no_wait] = words(input);
    decided(|[new_idx, new_used]| unsafe {
        wq_msgq_put_decide(idx, used, max, waiter != 0, no_wait != 0, new_idx, new_used).into()
    })
}

pub fn get(input: &[u32]) -> Result<Decision, String> {
    let [idx, used, max, waiter, no_wait] = words(input);
    decided(|[new_idx, new_used]| unsafe {
        wq_msgq_get_decide(idx, used, max, waiter != 0, no_wait != 0, new_idx, new_used).into()
    })
}

pub fn put_front(input: &[u32]) -> Result<Decision, String> {
    let [idx, used, max] = words(input);
    decided(|[new_idx, new_used]| unsafe { wq_msgq_put_front_decide(idx, used, max, new_idx, new_used) }.into())
}

pub fn peek_at(input: &[u32]) -> Result<Decision, String> {
    let [read_idx, used, max, idx] = words(input);
    decided(|[slot_idx]| unsafe { wq_msgq_peek_at_decide(read_idx, used, max, idx, slot_idx) }.into())
}
