//! The stack.

use super::decided;
use super::lent::{plain, with_room, Library, Parts, Reply};
use crate::decide::{words, Decision};
use crate::upstream::stack::Call;

extern "C" {
    fn wq_stack_init(head: *mut u32, word: *const u64, len: u64, capacity: u32) -> i32;
    fn wq_stack_push(head: *mut u32, word: *mut u64, len: u64, data: u64) -> i32;
    fn wq_stack_pop(head: *mut u32, word: *const u64, len: u64, data: *mut u64) -> i32;
    fn wq_stack_num_free(head: *const u32, word: *const u64, len: u64) -> i64;
    fn wq_stack_num_used(head: *const u32, word: *const u64, len: u64) -> i64;
    fn wq_stack_capacity(head: *const u32, word: *const u64, len: u64) -> i64;
    fn wq_stack_is_full(head: *const u32, word: *const u64, len: u64) -> i32;
    fn wq_stack_is_empty(head: *const u32, word: *const u64, len: u64) -> i32;
    fn wq_stack_push_decide(count: u32, capacity: u32, has_waiter: bool, new_count: *mut u32) -> i32;
    fn wq_stack_pop_decide(count: u32, is_no_wait: bool, new_count: *mut u32) -> i32;
}

pub struct Stack;

impl Library<2> for Stack {
    type Cell = u64;
    type Call = Call;

    fn brings(call: Call) -> u64 {
        matches!(call, Call::Push).into()
    }

    fn ask(Parts { head, cells, len }: Parts<u64>, call: Call, brought: &[u64]) -> Result<Reply<u64>, String> {
        unsafe {
            match call {
                Call::Init(capacity) => plain(wq_stack_init(head, cells, len, capacity)),
                Call::Push => plain(wq_stack_push(head, cells, len, brought[0])),
                Call::Pop => with_room(1, |_| 1, |data, _| wq_stack_pop(head, cells, len, data).into()),
            }
        }
    }

    fn numbers(Parts { head, cells, len }: Parts<u64>) -> Vec<i64> {
        unsafe {
            vec![
                wq_stack_capacity(head, cells, len),
                wq_stack_num_used(head, cells, len),
                wq_stack_num_free(head, cells, len),
                wq_stack_is_empty(head, cells, len).into(),
                wq_stack_is_full(head, cells, len).into(),
            ]
        }
    }
}

pub fn push(input: &[u32]) -> Result<Decision, String> {
    let [count, capacity, has_waiter] = words(input);
    decided(|[new_count]| unsafe { wq_stack_push_decide(count, capacity, has_waiter != 0, new_count) }.into())
}

pub fn pop(input: &[u32]) -> Result<Decision, String> {
    let [count, is_no_wait] = words(input);
    decided(|[new_count]| unsafe { wq_stack_pop_decide(count, is_no_wait != 0, new_count) }.into())
}
