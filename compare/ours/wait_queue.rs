//! The wait queue.

use super::{plain, with_room, with_word, Library, Memory};
use crate::answer::{Answer, Caller};

extern "C" {
    fn wq_wait_queue_new(len: *mut u32);
    fn wq_wait_queue_len(len: u32, entry: *const u64) -> i32;
    fn wq_wait_queue_is_empty(len: u32, entry: *const u64) -> i32;
    fn wq_wait_queue_pend(len: *mut u32, entry: *mut u64, id: u32, priority: u32, state: u32) -> i32;
    fn wq_wait_queue_unpend_first(len: *mut u32, entry: *const u64, return_value: i32, who: *mut u64) -> i32;
    fn wq_wait_queue_unpend_all(
        len: *mut u32,
        entry: *const u64,
        return_value: i32,
        out: *mut u64,
        out_len: u64,
    ) -> i32;
    fn wq_wait_queue_remove(len: *mut u32, entry: *mut u64, id: u32) -> i32;
    fn wq_wait_queue_audit(len: u32, entry: *const u64) -> bool;
}

/// A wait carries the state of its caller.
#[derive(Clone, Copy, Debug)]
pub enum Call {
    Pend(Caller, u32),
    UnpendFirst(i32),
    UnpendAll { result: i32, room: usize },
    Remove(u32),
}

pub struct Queue;

/// An empty queue over entries that mean nothing.
pub fn empty() -> Memory<1> {
    let mut queue = Memory::raw();
    unsafe { wq_wait_queue_new(queue.head.as_mut_ptr()) };
    queue
}

impl Library<1> for Queue {
    type Call = Call;
    /// How many wait, and whether nobody does.
    type Numbers = [i64; 2];

    fn ask(queue: &mut Memory<1>, call: Call) -> Result<Answer, String> {
        let (len, entry) = queue.parts_mut();
        unsafe {
            match call {
                Call::Pend(Caller { id, priority }, state) => {
                    plain(wq_wait_queue_pend(len, entry, id, priority, state))
                }
                Call::UnpendFirst(result) => {
                    with_word(|who| wq_wait_queue_unpend_first(len, entry, result, who), |code| code == 1)
                }
                Call::UnpendAll { result, room } => {
                    with_room(room, |out, room| wq_wait_queue_unpend_all(len, entry, result, out, room))
                }
                Call::Remove(id) => plain(wq_wait_queue_remove(len, entry, id)),
            }
        }
    }

    fn numbers(queue: &Memory<1>) -> [i64; 2] {
        let (len, entry) = (queue.len(), queue.entry.as_ptr());
        unsafe { [wq_wait_queue_len(len, entry), wq_wait_queue_is_empty(len, entry)].map(i64::from) }
    }

    fn audit(queue: &Memory<1>) -> bool {
        unsafe { wq_wait_queue_audit(queue.len(), queue.entry.as_ptr()) }
    }
}
