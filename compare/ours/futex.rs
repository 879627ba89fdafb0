//! The futex.

use super::{plain, with_room, Library, Memory};
use crate::answer::{Answer, Caller};

extern "C" {
    fn wq_futex_init(head: *mut u32, val: u32) -> i32;
    fn wq_futex_wait(head: *mut u32, entry: *mut u64, expected: u32, id: u32, priority: u32, state: u32) -> i32;
    fn wq_futex_wake(head: *mut u32, entry: *const u64, wake_all: bool, out: *mut u64, out_len: u64) -> i32;
    fn wq_futex_val_set(head: *mut u32, entry: *const u64, val: u32) -> i32;
    fn wq_futex_val_get(head: *const u32, entry: *const u64) -> i64;
    fn wq_futex_num_waiters(head: *const u32, entry: *const u64) -> i64;
    fn wq_futex_audit(head: *const u32, entry: *const u64) -> bool;
    pub fn wq_futex_wait_decide(val: u32, expected: u32) -> i32;
    pub fn wq_futex_wake_decide(num_waiters: u32, wake_all: bool, remaining: *mut u32) -> i32;
}

/// A wait carries the state of its caller.
#[derive(Clone, Copy, Debug)]
pub enum Call {
    Init(u32),
    Wait { expected: u32, caller: Caller, state: u32 },
    Wake { all: bool, room: usize },
    ValSet(u32),
}

pub struct Futex;

impl Library<2> for Futex {
    type Call = Call;
    /// The value, how many wait.
    type Numbers = [i64; 2];

    fn ask(futex: &mut Memory<2>, call: Call) -> Result<Answer, String> {
        let (head, entry) = futex.parts_mut();
        unsafe {
            match call {
                Call::Init(val) => plain(wq_futex_init(head, val)),
                Call::Wait { expected, caller: Caller { id, priority }, state } => {
                    plain(wq_futex_wait(head, entry, expected, id, priority, state))
                }
                Call::Wake { all, room } => with_room(room, |out, room| wq_futex_wake(head, entry, all, out, room)),
                Call::ValSet(val) => plain(wq_futex_val_set(head, entry, val)),
            }
        }
    }

    fn numbers(futex: &Memory<2>) -> [i64; 2] {
        let (head, entry) = futex.parts();
        unsafe { [wq_futex_val_get(head, entry), wq_futex_num_waiters(head, entry)] }
    }

    fn audit(futex: &Memory<2>) -> bool {
        let (head, entry) = futex.parts();
        unsafe { wq_futex_audit(head, entry) }
    }
}
