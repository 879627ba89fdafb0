//! The pipe.

use super::decided;
use super::lent::{plain, with_room, with_source, Library, Parts, Reply};
use crate::decide::{words, Decision};
use crate::upstream::pipe::Call;

extern "C" {
    fn wq_pipe_init(head: *mut u32, buf: *const u8, len: u64, size: u32) -> i32;
    fn wq_pipe_write(head: *mut u32, buf: *mut u8, len: u64, src: *const u8, src_len: u64) -> i64;
    fn wq_pipe_write_all(head: *mut u32, buf: *mut u8, len: u64, src: *const u8, src_len: u64) -> i64;
    fn wq_pipe_read_all(head: *mut u32, buf: *const u8, len: u64, out: *mut u8, out_len: u64) -> i64;
    fn wq_pipe_read(head: *mut u32, buf: *const u8, len: u64, out: *mut u8, out_len: u64) -> i64;
    fn wq_pipe_reset(head: *mut u32, buf: *const u8, len: u64) -> i32;
    fn wq_pipe_close(head: *mut u32, buf: *const u8, len: u64) -> i32;
    fn wq_pipe_clear_reset(head: *mut u32, buf: *const u8, len: u64) -> i32;
    fn wq_pipe_space_get(head: *const u32, buf: *const u8, len: u64) -> i64;
    fn wq_pipe_data_get(head: *const u32, buf: *const u8, len: u64) -> i64;
    fn wq_pipe_size(head: *const u32, buf: *const u8, len: u64) -> i64;
    fn wq_pipe_is_empty(head: *const u32, buf: *const u8, len: u64) -> i32;
    fn wq_pipe_is_full(head: *const u32, buf: *const u8, len: u64) -> i32;
    fn wq_pipe_is_open(head: *const u32, buf: *const u8, len: u64) -> i32;
    fn wq_pipe_is_resetting(head: *const u32, buf: *const u8, len: u64) -> i32;
    fn wq_pipe_write_decide(
        used: u32,
        size: u32,
        flags: u32,
        request_len: u32,
        has_reader: bool,
        actual_bytes: *mut u32,
        new_used: *mut u32,
    ) -> i32;
    fn wq_pipe_read_decide(
        used: u32,
        size: u32,
        flags: u32,
        request_len: u32,
        has_writer: bool,
        actual_bytes: *mut u32,
        new_used: *mut u32,
    ) -> i32;
}

pub struct Pipe;

impl Library<4> for Pipe {
    type Cell = u8;
    type Call = Call;

    fn brings(call: Call) -> u64 {
        match call {
            Call::Write(len) | Call::WriteAll(len) => len,
            _ => 0,
        }
    }

    fn ask(Parts { head, cells, len }: Parts<u8>, call: Call, brought: &[u8]) -> Result<Reply<u8>, String> {
        unsafe {
            match call {
                Call::Init(size) => plain(wq_pipe_init(head, cells, len, size)),
                Call::Write(count) => {
                    with_source(brought, count, |src, src_len| wq_pipe_write(head, cells, len, src, src_len))
                }
                Call::WriteAll(count) => {
                    with_source(brought, count, |src, src_len| wq_pipe_write_all(head, cells, len, src, src_len))
                }
                Call::ReadAll(room) => {
                    let written = |code| code as usize;
                    with_room(room, written, |out, out_len| wq_pipe_read_all(head, cells, len, out, out_len))
                }
                Call::Read(room) => {
                    let written = |code| code as usize;
                    with_room(room, written, |out, out_len| wq_pipe_read(head, cells, len, out, out_len))
                }
                Call::Reset => plain(wq_pipe_reset(head, cells, len)),
                Call::Close => plain(wq_pipe_close(head, cells, len)),
                Call::ClearReset => plain(wq_pipe_clear_reset(head, cells, len)),
            }
        }
    }

    fn numbers(Parts { head, cells, len }: Parts<u8>) -> Vec<i64> {
        unsafe {
            vec![
                wq_pipe_size(head, cells, len),
                wq_pipe_data_get(head, cells, len),
                wq_pipe_space_get(head, cells, len),
                wq_pipe_is_empty(head, cells, len).into(),
                wq_pipe_is_full(head, cells, len).into(),
                wq_pipe_is_open(head, cells, len).into(),
                wq_pipe_is_resetting(head, cells, len).into(),
            ]
        }
    }
}

pub fn write(input: &[u32]) -> Result<Decision, String> {
    let [used, size, flags, request_len, has_reader] = words(input);
    decided(|[actual, new_used]| unsafe {
        wq_pipe_write_decide(used, size, flags, request_len, has_reader != 0, actual, new_used).into()
    })
}

pub fn read(input: &[u32]) -> Result<Decision, String> {
    let [used, size, flags, request_len, has_writer] = words(input);
    decided(|[actual, new_used]| unsafe {
        wq_pipe_read_decide(used, size, flags, request_len, has_writer != 0, actual, new_used).into()
    })
}
